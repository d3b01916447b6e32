// The block has one parameter.
.typedef @i64 = int<64>
.funcsig @mi = () -> (@i64)
.const @one <@i64> = 1
.funcdef @main VERSION %v <@mi> {
%e():
  BRANCH %next(@one @one)
%next(<@i64> %a):
  RET (%a)
}
