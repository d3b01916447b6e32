// 3.SB+scs. Asked: value 0 of thread 0 is 0, value 0 of thread 1 is 0, value 0 of thread 2 is 0.
.typedef @i64 = int<64>
.funcsig @r1 = () -> (@i64)
.const @c1 <@i64> = 1
.global @x <@i64>
.global @y <@i64>
.global @z <@i64>
.funcdef @p1 VERSION %v <@r1> {
%e():
  STORE SEQ_CST <@i64> @y @c1
  %r0 = LOAD SEQ_CST <@i64> @z
  RET (%r0)
}
.funcdef @p2 VERSION %v <@r1> {
%e():
  STORE SEQ_CST <@i64> @z @c1
  %r0 = LOAD SEQ_CST <@i64> @x
  RET (%r0)
}
.funcdef @main VERSION %v <@r1> {
%e():
  %s1 = COMMINST @uvm.new_stack <[@r1]> (@p1)
  %s2 = COMMINST @uvm.new_stack <[@r1]> (@p2)
  %t1 = NEWTHREAD %s1 PASS_VALUES<> ()
  %t2 = NEWTHREAD %s2 PASS_VALUES<> ()
  STORE SEQ_CST <@i64> @x @c1
  %r0 = LOAD SEQ_CST <@i64> @y
  RET (%r0)
}
