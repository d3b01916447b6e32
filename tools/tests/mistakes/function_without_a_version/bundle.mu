// A function has a version.
.typedef @i64 = int<64>
.funcsig @mi = () -> (@i64)
.const @one <@i64> = 1
.funcdef @main <@mi> {
%e():
  RET (@one)
}
