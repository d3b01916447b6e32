// The second entry pops as many frames as there are.
.typedef @i64 = int<64>
.funcsig @m = () -> ()
.funcsig @mi = () -> (@i64)
.funcsig @up = (@i64) -> (@i64)
.const @one <@i64> = 1
.funcdef @nothing VERSION %v <@m> {
%e():
  RET ()
}
.funcdef @asks VERSION %v <@up> {
%e(<@i64> %n):
  %answer = TRAP <@i64> KEEPALIVE(%n)
  RET (%answer)
}
.funcdef @main VERSION %v <@mi> {
%e():
  %a = CALL <@up> @asks (@one)
  %b = CALL <@up> @asks (%a) KEEPALIVE(%a)
  RET (%b)
}
