.typedef @i64 = int<64>
.funcsig @mi = () -> (@i64)
.funcdef @main VERSION %v <@mi> {
%e():
  %c = TRAP <@i64>
  RET (%c)
}
