.typedef @i64 = int<64>
.funcsig @none = () -> ()
.funcsig @mi = () -> (@i64)
.const @one <@i64> = 1
.global @counter <@i64>
.funcdef @count VERSION %v <@none> {
%e():
  %n = LOAD <@i64> @counter
  %next = ADD <@i64> %n @one
  STORE <@i64> @counter %next
  RET ()
}
.funcdef @main VERSION %v <@mi> {
%e():
  CALL <@none> @count ()
  CALL <@none> @count ()
  %n = LOAD <@i64> @counter
  RET (%n)
}
