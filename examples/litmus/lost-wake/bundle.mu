// The waker looks first whether anybody waits, RELAXED. Asked: the sleeper is left asleep. Yes: the waker may see nobody.
.typedef @i32 = int<32>
.typedef @i64 = int<64>
.funcsig @none = () -> ()
.funcsig @one_of = () -> (@i64)
.const @c0 <@i64> = 0
.const @c1 <@i64> = 1
.const @one_thread <@i32> = 1
.global @flag <@i64>
.global @waits <@i64>
.funcdef @sleeper VERSION %v <@one_of> {
%e():
  %f = LOAD ACQUIRE <@i64> @flag
  %z = EQ <@i64> %f @c0
  BRANCH2 %z %sleep() %end()
%sleep():
  STORE RELAXED <@i64> @waits @c1
  %w = COMMINST @uvm.futex.wait <@i64> (@flag @c0)
  BRANCH %end()
%end():
  RET (@c1)
}
.funcdef @main VERSION %v <@none> {
%b():
  %s = COMMINST @uvm.new_stack <[@one_of]> (@sleeper)
  %t = NEWTHREAD %s PASS_VALUES<> ()
  STORE RELEASE <@i64> @flag @c1
  %n = LOAD RELAXED <@i64> @waits
  %z = EQ <@i64> %n @c0
  BRANCH2 %z %end() %wake()
%wake():
  %k = COMMINST @uvm.futex.wake <@i64> (@flag @one_thread)
  BRANCH %end()
%end():
  RET ()
}
