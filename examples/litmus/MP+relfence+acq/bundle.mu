// MP+relfence+acq. Asked: value 0 of thread 1 is 1, value 1 of thread 1 is 0.
.typedef @i64 = int<64>
.funcsig @r0 = () -> ()
.funcsig @r2 = () -> (@i64 @i64)
.const @c1 <@i64> = 1
.global @x <@i64>
.global @y <@i64>
.funcdef @p1 VERSION %v <@r2> {
%e():
  %r0 = LOAD ACQUIRE <@i64> @y
  %r1 = LOAD RELAXED <@i64> @x
  RET (%r0 %r1)
}
.funcdef @main VERSION %v <@r0> {
%e():
  %s1 = COMMINST @uvm.new_stack <[@r2]> (@p1)
  %t1 = NEWTHREAD %s1 PASS_VALUES<> ()
  STORE RELAXED <@i64> @x @c1
  FENCE RELEASE
  STORE RELAXED <@i64> @y @c1
  RET ()
}
