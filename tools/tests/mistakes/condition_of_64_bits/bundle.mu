// A condition has one bit.
.typedef @i64 = int<64>
.funcsig @mi = () -> (@i64)
.const @one <@i64> = 1
.funcdef @main VERSION %v <@mi> {
%e():
  BRANCH2 @one %yes() %no()
%yes():
  RET (@one)
%no():
  RET (@one)
}
