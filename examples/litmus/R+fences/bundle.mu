// R+fences. Asked: value 0 of thread 1 is 0, @y is 2 at the end.
.typedef @i64 = int<64>
.funcsig @r0 = () -> ()
.funcsig @r1 = () -> (@i64)
.const @c1 <@i64> = 1
.const @c2 <@i64> = 2
.global @x <@i64>
.global @y <@i64>
.funcdef @p1 VERSION %v <@r1> {
%e():
  STORE RELAXED <@i64> @y @c2
  FENCE SEQ_CST
  %r0 = LOAD RELAXED <@i64> @x
  RET (%r0)
}
.funcdef @main VERSION %v <@r0> {
%e():
  %s1 = COMMINST @uvm.new_stack <[@r1]> (@p1)
  %t1 = NEWTHREAD %s1 PASS_VALUES<> ()
  STORE RELAXED <@i64> @x @c1
  FENCE SEQ_CST
  STORE RELAXED <@i64> @y @c1
  RET ()
}
