// A variable is used in another block than its own.
.typedef @i64 = int<64>
.funcsig @mi = () -> (@i64)
.const @one <@i64> = 1
.funcdef @main VERSION %v <@mi> {
%e():
  %x = ADD <@i64> @one @one
  BRANCH %next()
%next():
  %y = ADD <@i64> %x @one
  RET (%y)
}
