// Two threads write, meet at a barrier, and read what the other wrote. The one that comes last opens the barrier and wakes the other.
// Asked: a thread reads 0, or waits for ever, or a race. No.
.typedef @i32 = int<32>
.typedef @i64 = int<64>
.funcsig @none = () -> ()
.funcsig @read = () -> (@i64)
.const @zero <@i64> = 0
.const @one <@i64> = 1
.const @one_thread <@i32> = 1
.global @x <@i64>
.global @y <@i64>
.global @came <@i64>
.global @open <@i64>
.funcdef @meet VERSION %v <@none> {
%e():
  %before = ATOMICRMW ACQ_REL ADD <@i64> @came @one
  %last = EQ <@i64> %before @one
  BRANCH2 %last %let_through() %look()
%let_through():
  STORE RELEASE <@i64> @open @one
  %woken = COMMINST @uvm.futex.wake <@i64> (@open @one_thread)
  BRANCH %end()
%look():
  %o = LOAD ACQUIRE <@i64> @open
  %shut = EQ <@i64> %o @zero
  BRANCH2 %shut %sleep() %end()
%sleep():
  %how = COMMINST @uvm.futex.wait <@i64> (@open @zero)
  BRANCH %look()
%end():
  RET ()
}
.funcdef @other VERSION %v <@read> {
%e():
  STORE <@i64> @y @one
  CALL <@none> @meet ()
  %r = LOAD <@i64> @x
  RET (%r)
}
.funcdef @main VERSION %v <@read> {
%e():
  %s = COMMINST @uvm.new_stack <[@read]> (@other)
  %t = NEWTHREAD %s PASS_VALUES<> ()
  STORE <@i64> @x @one
  CALL <@none> @meet ()
  %r = LOAD <@i64> @y
  RET (%r)
}
