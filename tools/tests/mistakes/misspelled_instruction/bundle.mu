// There is SLT and SLE, and no SLET.
.typedef @i64 = int<64>
.funcsig @mi = () -> (@i64)
.const @one <@i64> = 1
.funcdef @main VERSION %v <@mi> {
%e():
  %x = SLET <@i64> @one @one
  RET (@one)
}
