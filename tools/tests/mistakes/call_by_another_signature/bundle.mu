// @add is called by a signature that is not its own.
.typedef @i64 = int<64>
.funcsig @mi = () -> (@i64)
.funcsig @up = (@i64) -> (@i64)
.funcsig @two = (@i64 @i64) -> (@i64)
.const @one <@i64> = 1
.funcdef @add VERSION %v <@two> {
%e(<@i64> %a <@i64> %b):
  %c = ADD <@i64> %a %b
  RET (%c)
}
.funcdef @main VERSION %v <@mi> {
%e():
  %x = CALL <@up> @add (@one)
  RET (%x)
}
