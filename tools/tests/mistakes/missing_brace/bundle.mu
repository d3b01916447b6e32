// The first function is never closed.
.typedef @i64 = int<64>
.funcsig @mi = () -> (@i64)
.const @one <@i64> = 1
.funcdef @main VERSION %v <@mi> {
%e():
  RET (@one)
.funcdef @other VERSION %v <@mi> {
%e():
  RET (@one)
}
