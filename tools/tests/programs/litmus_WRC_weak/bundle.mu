// Write to read causality with relaxed accesses: the third thread sees what the second wrote, and not what that one read.
.typedef @i64 = int<64>
.funcsig @none = () -> ()
.global @x <@i64>
.global @y <@i64>
.funcsig @sig1 = () -> ()
.funcsig @sig2 = () -> (@i64)
.funcsig @sig3 = () -> (@i64 @i64)
.const @n1 <@i64> = 1
.funcdef @p1 VERSION %v <@sig1> {
%e():
  STORE RELAXED <@i64> @x @n1
  RET ()
}
.funcdef @p2 VERSION %v <@sig2> {
%e():
  %r0 = LOAD RELAXED <@i64> @x
  STORE RELAXED <@i64> @y @n1
  RET (%r0)
}
.funcdef @p3 VERSION %v <@sig3> {
%e():
  %r0 = LOAD RELAXED <@i64> @y
  %r1 = LOAD RELAXED <@i64> @x
  RET (%r0 %r1)
}
.funcdef @main VERSION %v <@none> {
%e():
  %s1 = COMMINST @uvm.new_stack <[@sig1]> (@p1)
  %s2 = COMMINST @uvm.new_stack <[@sig2]> (@p2)
  %s3 = COMMINST @uvm.new_stack <[@sig3]> (@p3)
  %t1 = NEWTHREAD %s1 PASS_VALUES<> ()
  %t2 = NEWTHREAD %s2 PASS_VALUES<> ()
  %t3 = NEWTHREAD %s3 PASS_VALUES<> ()
  RET ()
}
