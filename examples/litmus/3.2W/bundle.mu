// 3.2W. Asked: @x is 1 at the end, @y is 1 at the end, @z is 1 at the end. No schedule shows it, though RC11 allows it.
.typedef @i64 = int<64>
.funcsig @r0 = () -> ()
.const @c1 <@i64> = 1
.const @c2 <@i64> = 2
.global @x <@i64>
.global @y <@i64>
.global @z <@i64>
.funcdef @p1 VERSION %v <@r0> {
%e():
  STORE RELAXED <@i64> @y @c1
  STORE RELAXED <@i64> @z @c2
  RET ()
}
.funcdef @p2 VERSION %v <@r0> {
%e():
  STORE RELAXED <@i64> @z @c1
  STORE RELAXED <@i64> @x @c2
  RET ()
}
.funcdef @main VERSION %v <@r0> {
%e():
  %s1 = COMMINST @uvm.new_stack <[@r0]> (@p1)
  %s2 = COMMINST @uvm.new_stack <[@r0]> (@p2)
  %t1 = NEWTHREAD %s1 PASS_VALUES<> ()
  %t2 = NEWTHREAD %s2 PASS_VALUES<> ()
  STORE RELAXED <@i64> @x @c1
  STORE RELAXED <@i64> @y @c2
  RET ()
}
