// An operand is no number.
.typedef @i64 = int<64>
.funcsig @mi = () -> (@i64)
.const @one <@i64> = 1
.funcdef @main VERSION %v <@mi> {
%e():
  %x = ADD <@i64> @one 1
  RET (%x)
}
