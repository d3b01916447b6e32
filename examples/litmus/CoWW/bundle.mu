// CoWW. Asked: @x is 1 at the end.
.typedef @i64 = int<64>
.funcsig @r0 = () -> ()
.const @c1 <@i64> = 1
.const @c2 <@i64> = 2
.global @x <@i64>
.funcdef @p1 VERSION %v <@r0> {
%e():
  RET ()
}
.funcdef @main VERSION %v <@r0> {
%e():
  %s1 = COMMINST @uvm.new_stack <[@r0]> (@p1)
  %t1 = NEWTHREAD %s1 PASS_VALUES<> ()
  STORE RELAXED <@i64> @x @c1
  STORE RELAXED <@i64> @x @c2
  RET ()
}
