// RMW-add2. Asked: @x is 1 at the end.
.typedef @i64 = int<64>
.funcsig @r1 = () -> (@i64)
.const @c1 <@i64> = 1
.global @x <@i64>
.funcdef @p1 VERSION %v <@r1> {
%e():
  %r0 = ATOMICRMW RELAXED ADD <@i64> @x @c1
  RET (%r0)
}
.funcdef @main VERSION %v <@r1> {
%e():
  %s1 = COMMINST @uvm.new_stack <[@r1]> (@p1)
  %t1 = NEWTHREAD %s1 PASS_VALUES<> ()
  %r0 = ATOMICRMW RELAXED ADD <@i64> @x @c1
  RET (%r0)
}
