// Two threads sleep, and nobody wakes the second.
.typedef @i32 = int<32>
.typedef @i64 = int<64>
.funcsig @none = () -> ()
.const @zero <@i32> = 0
.const @one <@i32> = 1
.global @door <@i32>
.global @gate <@i32>
.funcdef @waits VERSION %v <@none> {
%e():
  %how = COMMINST @uvm.futex.wait <@i32> (@gate @zero)
  RET ()
}
.funcdef @main VERSION %v <@none> {
%e():
  %s = COMMINST @uvm.new_stack <[@none]> (@waits)
  %t = NEWTHREAD %s PASS_VALUES<> ()
  %woken = COMMINST @uvm.futex.wake <@i32> (@door @one)
  %how = COMMINST @uvm.futex.wait <@i32> (@door @zero)
  RET ()
}
