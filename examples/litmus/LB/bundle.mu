// LB. Asked: value 0 of thread 0 is 1, value 0 of thread 1 is 1. No schedule shows it; RC11 forbids it too, C++20 does not.
.typedef @i64 = int<64>
.funcsig @r1 = () -> (@i64)
.const @c1 <@i64> = 1
.global @x <@i64>
.global @y <@i64>
.funcdef @p1 VERSION %v <@r1> {
%e():
  %r0 = LOAD RELAXED <@i64> @y
  STORE RELAXED <@i64> @x @c1
  RET (%r0)
}
.funcdef @main VERSION %v <@r1> {
%e():
  %s1 = COMMINST @uvm.new_stack <[@r1]> (@p1)
  %t1 = NEWTHREAD %s1 PASS_VALUES<> ()
  %r0 = LOAD RELAXED <@i64> @x
  STORE RELAXED <@i64> @y @c1
  RET (%r0)
}
