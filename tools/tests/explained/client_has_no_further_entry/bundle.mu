// Two traps, and one entry.
.typedef @i64 = int<64>
.funcsig @mi = () -> (@i64)
.funcsig @up = (@i64) -> (@i64)
.const @one <@i64> = 1
.global @cell <@i64>
.funcdef @asks VERSION %v <@up> {
%e(<@i64> %n):
  %answer = TRAP <@i64> KEEPALIVE(%n)
  RET (%answer)
}
.funcdef @main VERSION %v <@mi> {
%e():
  %a = CALL <@up> @asks (@one)
  %b = CALL <@up> @asks (%a) KEEPALIVE(%a)
  RET (%b)
}
