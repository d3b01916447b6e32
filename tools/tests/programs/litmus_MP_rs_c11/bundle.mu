// Message passing by a later relaxed store of the same thread: by the rule c11 it goes on the release sequence, so 1 has to be read.
.typedef @i64 = int<64>
.funcsig @none = () -> ()
.global @d <@i64>
.global @f <@i64>
.funcsig @sig1 = () -> ()
.funcsig @sig2 = () -> (@i64 @i64)
.const @n1 <@i64> = 1
.const @n2 <@i64> = 2
.funcdef @p1 VERSION %v <@sig1> {
%e():
  STORE RELAXED <@i64> @d @n1
  STORE RELEASE <@i64> @f @n1
  STORE RELAXED <@i64> @f @n2
  RET ()
}
.funcdef @p2 VERSION %v <@sig2> {
%e():
  %r0 = LOAD ACQUIRE <@i64> @f
  %r1 = LOAD RELAXED <@i64> @d
  RET (%r0 %r1)
}
.funcdef @main VERSION %v <@none> {
%e():
  %s1 = COMMINST @uvm.new_stack <[@sig1]> (@p1)
  %s2 = COMMINST @uvm.new_stack <[@sig2]> (@p2)
  %t1 = NEWTHREAD %s1 PASS_VALUES<> ()
  %t2 = NEWTHREAD %s2 PASS_VALUES<> ()
  RET ()
}
