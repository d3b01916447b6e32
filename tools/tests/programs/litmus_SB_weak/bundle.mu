// Store buffering: each thread stores to its own cell, and reads the old value of the other one.
.typedef @i64 = int<64>
.funcsig @none = () -> ()
.global @x <@i64>
.global @y <@i64>
.funcsig @sig1 = () -> (@i64)
.funcsig @sig2 = () -> (@i64)
.const @n1 <@i64> = 1
.funcdef @p1 VERSION %v <@sig1> {
%e():
  STORE RELAXED <@i64> @x @n1
  %r0 = LOAD RELAXED <@i64> @y
  RET (%r0)
}
.funcdef @p2 VERSION %v <@sig2> {
%e():
  STORE RELAXED <@i64> @y @n1
  %r0 = LOAD RELAXED <@i64> @x
  RET (%r0)
}
.funcdef @main VERSION %v <@none> {
%e():
  %s1 = COMMINST @uvm.new_stack <[@sig1]> (@p1)
  %s2 = COMMINST @uvm.new_stack <[@sig2]> (@p2)
  %t1 = NEWTHREAD %s1 PASS_VALUES<> ()
  %t2 = NEWTHREAD %s2 PASS_VALUES<> ()
  RET ()
}
