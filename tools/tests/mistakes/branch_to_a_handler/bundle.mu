// No exception comes by a BRANCH.
.typedef @i64 = int<64>
.funcsig @mi = () -> (@i64)
.const @one <@i64> = 1
.funcdef @main VERSION %v <@mi> {
%e():
  BRANCH %failed()
%failed() [%exception]:
  RET (@one)
}
