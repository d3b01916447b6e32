// The receiver sleeps while the flag is 0. The wake makes known what the sender did before.
.typedef @i32 = int<32>
.typedef @i64 = int<64>
.funcsig @none = () -> ()
.funcsig @mi = () -> (@i64)
.const @zero <@i64> = 0
.const @one <@i64> = 1
.const @message <@i64> = 42
.const @one_thread <@i32> = 1
.global @data <@i64>
.global @ready <@i64>
.funcdef @receive VERSION %v <@mi> {
%look():
  %state = LOAD ACQUIRE <@i64> @ready
  %is_ready = EQ <@i64> %state @one
  BRANCH2 %is_ready %take() %sleep()
%sleep():
  %how = COMMINST @uvm.futex.wait <@i64> (@ready @zero)     // it does not sleep where the flag is set by now
  BRANCH %look()
%take():
  %n = LOAD <@i64> @data
  RET (%n)
}
.funcdef @main VERSION %v <@none> {
%e():
  %s = COMMINST @uvm.new_stack <[@mi]> (@receive)
  %t = NEWTHREAD %s PASS_VALUES<> ()
  STORE <@i64> @data @message
  STORE RELEASE <@i64> @ready @one
  %woken = COMMINST @uvm.futex.wake <@i64> (@ready @one_thread)
  RET ()
}
