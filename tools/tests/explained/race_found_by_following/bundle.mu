// Two stores could have made the event: by the log before it, it is the second. A schedule lets the threads take turns.
.typedef @i64 = int<64>
.funcsig @none = () -> ()
.const @one <@i64> = 1
.const @two <@i64> = 2
.global @count <@i64>
.global @turn <@i64>
.funcdef @writes VERSION %v <@none> {
%e():
  STORE <@i64> @count @one
  STORE RELEASE <@i64> @turn @one
  STORE <@i64> @count @two
  RET ()
}
.funcdef @main VERSION %v <@none> {
%e():
  %s = COMMINST @uvm.new_stack <[@none]> (@writes)
  %t = NEWTHREAD %s PASS_VALUES<> ()
  %seen = LOAD ACQUIRE <@i64> @turn
  %n = LOAD <@i64> @count
  RET ()
}
