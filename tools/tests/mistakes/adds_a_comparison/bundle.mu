// A comparison gives one bit, and here it is added as 64.
.typedef @i1 = int<1>
.typedef @i64 = int<64>
.funcsig @mi = () -> (@i64)
.const @one <@i64> = 1
.funcdef @main VERSION %v <@mi> {
%e():
  %x = EQ <@i64> @one @one
  %y = ADD <@i64> %x @one
  RET (%y)
}
