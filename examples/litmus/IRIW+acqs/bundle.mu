// IRIW+acqs. Asked: value 0 of thread 2 is 1, value 1 of thread 2 is 0, value 0 of thread 3 is 1, value 1 of thread 3 is 0.
.typedef @i64 = int<64>
.funcsig @r0 = () -> ()
.funcsig @r2 = () -> (@i64 @i64)
.const @c1 <@i64> = 1
.global @x <@i64>
.global @y <@i64>
.funcdef @p1 VERSION %v <@r0> {
%e():
  STORE RELEASE <@i64> @y @c1
  RET ()
}
.funcdef @p2 VERSION %v <@r2> {
%e():
  %r0 = LOAD ACQUIRE <@i64> @x
  %r1 = LOAD ACQUIRE <@i64> @y
  RET (%r0 %r1)
}
.funcdef @p3 VERSION %v <@r2> {
%e():
  %r0 = LOAD ACQUIRE <@i64> @y
  %r1 = LOAD ACQUIRE <@i64> @x
  RET (%r0 %r1)
}
.funcdef @main VERSION %v <@r0> {
%e():
  %s1 = COMMINST @uvm.new_stack <[@r0]> (@p1)
  %s2 = COMMINST @uvm.new_stack <[@r2]> (@p2)
  %s3 = COMMINST @uvm.new_stack <[@r2]> (@p3)
  %t1 = NEWTHREAD %s1 PASS_VALUES<> ()
  %t2 = NEWTHREAD %s2 PASS_VALUES<> ()
  %t3 = NEWTHREAD %s3 PASS_VALUES<> ()
  STORE RELEASE <@i64> @x @c1
  RET ()
}
