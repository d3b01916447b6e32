// The same with a schedule: who made the earlier access cannot be shown.
.typedef @i64 = int<64>
.funcsig @none = () -> ()
.const @one <@i64> = 1
.global @count <@i64>
.funcdef @add VERSION %v <@none> {
%e():
  %n = LOAD <@i64> @count
  %m = ADD <@i64> %n @one
  STORE <@i64> @count %m
  RET ()
}
.funcdef @main VERSION %v <@none> {
%e():
  %s = COMMINST @uvm.new_stack <[@none]> (@add)
  %t = NEWTHREAD %s PASS_VALUES<> ()
  CALL <@none> @add ()
  RET ()
}
