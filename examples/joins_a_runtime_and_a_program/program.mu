// It declares @double, which runtime.mu defines; both say the same of @i64 and @unary.
.typedef @i64 = int<64>
.funcsig @unary = (@i64) -> (@i64)
.funcdecl @double <@unary>
.funcsig @mi = () -> (@i64)
.const @n <@i64> = 21
.funcdef @main VERSION %v <@mi> {
%e():
  %m = CALL <@unary> @double (@n)
  RET (%m)
}
