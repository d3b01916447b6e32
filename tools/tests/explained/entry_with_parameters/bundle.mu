// The entry takes nothing.
.typedef @i64 = int<64>
.funcsig @up = (@i64) -> (@i64)
.funcdef @main VERSION %v <@up> {
%e(<@i64> %n):
  RET (%n)
}
