// Message passing with relaxed accesses: the flag is seen, and the data is old.
.typedef @i64 = int<64>
.funcsig @none = () -> ()
.global @d <@i64>
.global @f <@i64>
.funcsig @sig1 = () -> ()
.funcsig @sig2 = () -> (@i64 @i64)
.const @n1 <@i64> = 1
.funcdef @p1 VERSION %v <@sig1> {
%e():
  STORE RELAXED <@i64> @d @n1
  STORE RELAXED <@i64> @f @n1
  RET ()
}
.funcdef @p2 VERSION %v <@sig2> {
%e():
  %r0 = LOAD RELAXED <@i64> @f
  %r1 = LOAD RELAXED <@i64> @d
  RET (%r0 %r1)
}
.funcdef @main VERSION %v <@none> {
%e():
  %s1 = COMMINST @uvm.new_stack <[@sig1]> (@p1)
  %s2 = COMMINST @uvm.new_stack <[@sig2]> (@p2)
  %t1 = NEWTHREAD %s1 PASS_VALUES<> ()
  %t2 = NEWTHREAD %s2 PASS_VALUES<> ()
  RET ()
}
