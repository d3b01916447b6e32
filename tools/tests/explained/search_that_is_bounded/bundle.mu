// The loop has no end.
.typedef @i64 = int<64>
.funcsig @none = () -> ()
.const @one <@i64> = 1
.global @count <@i64>
.funcdef @main VERSION %v <@none> {
%e():
  BRANCH %loop()
%loop():
  %n = LOAD <@i64> @count
  %m = ADD <@i64> %n @one
  STORE <@i64> @count %m
  BRANCH %loop()
}
