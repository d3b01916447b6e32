.typedef @i1 = int<1>
.typedef @i64 = int<64>
.funcsig @mi = () -> (@i64)
.const @zero <@i64> = 0
.const @one <@i64> = 1
.funcdef @main VERSION %v <@mi> {
%e():
  %q = SDIV <@i64> @one @zero
  RET (%q)
}
