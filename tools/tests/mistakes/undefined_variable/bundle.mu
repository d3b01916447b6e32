// Nothing defines %count.
.typedef @i64 = int<64>
.funcsig @up = (@i64) -> (@i64)
.const @one <@i64> = 1
.funcdef @main VERSION %v <@up> {
%e(<@i64> %counter):
  %y = ADD <@i64> %count @one
  RET (%y)
}
