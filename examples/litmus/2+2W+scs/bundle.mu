// 2+2W+scs. Asked: @x is 1 at the end, @y is 1 at the end.
.typedef @i64 = int<64>
.funcsig @r0 = () -> ()
.const @c1 <@i64> = 1
.const @c2 <@i64> = 2
.global @x <@i64>
.global @y <@i64>
.funcdef @p1 VERSION %v <@r0> {
%e():
  STORE SEQ_CST <@i64> @y @c1
  STORE SEQ_CST <@i64> @x @c2
  RET ()
}
.funcdef @main VERSION %v <@r0> {
%e():
  %s1 = COMMINST @uvm.new_stack <[@r0]> (@p1)
  %t1 = NEWTHREAD %s1 PASS_VALUES<> ()
  STORE SEQ_CST <@i64> @x @c1
  STORE SEQ_CST <@i64> @y @c2
  RET ()
}
