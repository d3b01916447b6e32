// The first block takes what the function takes.
.typedef @i64 = int<64>
.funcsig @up = (@i64) -> (@i64)
.const @one <@i64> = 1
.funcdef @main VERSION %v <@up> {
%e():
  RET (@one)
}
