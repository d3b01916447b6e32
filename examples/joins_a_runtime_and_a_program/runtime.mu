// What the program of this folder is joined with: a function, and the types that both have.
.typedef @i64 = int<64>
.funcsig @unary = (@i64) -> (@i64)
.const @two <@i64> = 2
.funcdef @double VERSION %v <@unary> {
%e(<@i64> %n):
  %m = MUL <@i64> %n @two
  RET (%m)
}
