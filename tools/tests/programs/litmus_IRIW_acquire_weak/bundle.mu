// Independent reads of independent writes, with ACQUIRE loads: two readers see the two writes in different orders.
.typedef @i64 = int<64>
.funcsig @none = () -> ()
.global @x <@i64>
.global @y <@i64>
.funcsig @sig1 = () -> ()
.funcsig @sig2 = () -> ()
.funcsig @sig3 = () -> (@i64 @i64)
.funcsig @sig4 = () -> (@i64 @i64)
.const @n1 <@i64> = 1
.funcdef @p1 VERSION %v <@sig1> {
%e():
  STORE RELEASE <@i64> @x @n1
  RET ()
}
.funcdef @p2 VERSION %v <@sig2> {
%e():
  STORE RELEASE <@i64> @y @n1
  RET ()
}
.funcdef @p3 VERSION %v <@sig3> {
%e():
  %r0 = LOAD ACQUIRE <@i64> @x
  %r1 = LOAD ACQUIRE <@i64> @y
  RET (%r0 %r1)
}
.funcdef @p4 VERSION %v <@sig4> {
%e():
  %r0 = LOAD ACQUIRE <@i64> @y
  %r1 = LOAD ACQUIRE <@i64> @x
  RET (%r0 %r1)
}
.funcdef @main VERSION %v <@none> {
%e():
  %s1 = COMMINST @uvm.new_stack <[@sig1]> (@p1)
  %s2 = COMMINST @uvm.new_stack <[@sig2]> (@p2)
  %s3 = COMMINST @uvm.new_stack <[@sig3]> (@p3)
  %s4 = COMMINST @uvm.new_stack <[@sig4]> (@p4)
  %t1 = NEWTHREAD %s1 PASS_VALUES<> ()
  %t2 = NEWTHREAD %s2 PASS_VALUES<> ()
  %t3 = NEWTHREAD %s3 PASS_VALUES<> ()
  %t4 = NEWTHREAD %s4 PASS_VALUES<> ()
  RET ()
}
