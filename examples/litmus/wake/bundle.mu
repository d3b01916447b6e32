// A thread sleeps while a flag is 0; the other writes data, releases the flag and wakes. Asked: it sleeps for ever, or a race. No.
.typedef @i32 = int<32>
.typedef @i64 = int<64>
.funcsig @none = () -> ()
.funcsig @read = () -> (@i64)
.const @zero <@i64> = 0
.const @one <@i64> = 1
.const @one_thread <@i32> = 1
.global @data <@i64>
.global @flag <@i64>
.funcdef @sleeper VERSION %v <@read> {
%e():
  %how = COMMINST @uvm.futex.wait <@i64> (@flag @zero)
  %f = LOAD ACQUIRE <@i64> @flag
  %d = LOAD <@i64> @data
  RET (%d)
}
.funcdef @main VERSION %v <@none> {
%e():
  %s = COMMINST @uvm.new_stack <[@read]> (@sleeper)
  %t = NEWTHREAD %s PASS_VALUES<> ()
  STORE <@i64> @data @one
  STORE RELEASE <@i64> @flag @one
  %woken = COMMINST @uvm.futex.wake <@i64> (@flag @one_thread)
  RET ()
}
