.typedef @i64 = int<64>
.funcsig @mi = () -> (@i64)
.const @a <@i64> = 40
.const @b <@i64> = 2
.funcdef @main VERSION %v <@mi> {
%e():
  %c = ADD <@i64> @a @b
  RET (%c)
}
