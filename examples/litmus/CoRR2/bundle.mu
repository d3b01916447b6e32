// CoRR2. Asked: value 0 of thread 2 is 1, value 1 of thread 2 is 2, value 0 of thread 3 is 2, value 1 of thread 3 is 1.
.typedef @i64 = int<64>
.funcsig @r0 = () -> ()
.funcsig @r2 = () -> (@i64 @i64)
.const @c1 <@i64> = 1
.const @c2 <@i64> = 2
.global @x <@i64>
.funcdef @p1 VERSION %v <@r0> {
%e():
  STORE RELAXED <@i64> @x @c2
  RET ()
}
.funcdef @p2 VERSION %v <@r2> {
%e():
  %r0 = LOAD RELAXED <@i64> @x
  %r1 = LOAD RELAXED <@i64> @x
  RET (%r0 %r1)
}
.funcdef @p3 VERSION %v <@r2> {
%e():
  %r0 = LOAD RELAXED <@i64> @x
  %r1 = LOAD RELAXED <@i64> @x
  RET (%r0 %r1)
}
.funcdef @main VERSION %v <@r0> {
%e():
  %s1 = COMMINST @uvm.new_stack <[@r0]> (@p1)
  %s2 = COMMINST @uvm.new_stack <[@r2]> (@p2)
  %s3 = COMMINST @uvm.new_stack <[@r2]> (@p3)
  %t1 = NEWTHREAD %s1 PASS_VALUES<> ()
  %t2 = NEWTHREAD %s2 PASS_VALUES<> ()
  %t3 = NEWTHREAD %s3 PASS_VALUES<> ()
  STORE RELAXED <@i64> @x @c1
  RET ()
}
