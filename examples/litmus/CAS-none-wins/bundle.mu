// CAS-none-wins. Two comparisons with 0. Asked: none wins. No.
.typedef @i1 = int<1>
.typedef @i64 = int<64>
.funcsig @r2 = () -> (@i64 @i64)
.const @c0 <@i64> = 0
.const @c1 <@i64> = 1
.const @c2 <@i64> = 2
.global @x <@i64>
.funcdef @p1 VERSION %v <@r2> {
%e():
  (%r0 %w1) = CMPXCHG RELAXED RELAXED <@i64> @x @c0 @c2
  %r1 = ZEXT <@i1 @i64> %w1
  RET (%r0 %r1)
}
.funcdef @main VERSION %v <@r2> {
%e():
  %s1 = COMMINST @uvm.new_stack <[@r2]> (@p1)
  %t1 = NEWTHREAD %s1 PASS_VALUES<> ()
  (%r0 %w1) = CMPXCHG RELAXED RELAXED <@i64> @x @c0 @c1
  %r1 = ZEXT <@i1 @i64> %w1
  RET (%r0 %r1)
}
