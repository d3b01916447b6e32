// Two threads take a lock, with two tries each. Asked: a race. No.
.typedef @i64 = int<64>
.funcsig @r1 = () -> (@i64)
.const @c0 <@i64> = 0
.const @c1 <@i64> = 1
.const @c2 <@i64> = 2
.global @lock <@i64>
.global @count <@i64>
.funcdef @add VERSION %v <@r1> {
%e():
  BRANCH %try(@c2)
%try(<@i64> %n):
  (%was %won) = CMPXCHG ACQUIRE RELAXED <@i64> @lock @c0 @c1
  BRANCH2 %won %in() %again(%n)
%again(<@i64> %n):
  %m = SUB <@i64> %n @c1
  %z = EQ <@i64> %m @c0
  BRANCH2 %z %out() %try(%m)
%in():
  %n = LOAD <@i64> @count
  %m = ADD <@i64> %n @c1
  STORE <@i64> @count %m
  STORE RELEASE <@i64> @lock @c0
  RET (@c1)
%out():
  RET (@c0)
}
.funcdef @main VERSION %v <@r1> {
%b():
  %s1 = COMMINST @uvm.new_stack <[@r1]> (@add)
  %t1 = NEWTHREAD %s1 PASS_VALUES<> ()
  %r = CALL <@r1> @add ()
  RET (%r)
}
