// Peterson's lock, one look each, RELEASE and ACQUIRE. Asked: both threads come in, which is a race. Yes.
.typedef @i64 = int<64>
.funcsig @r1 = () -> (@i64)
.const @c0 <@i64> = 0
.const @c1 <@i64> = 1
.global @flag0 <@i64>
.global @flag1 <@i64>
.global @turn <@i64>
.global @count <@i64>
.funcdef @p1 VERSION %v <@r1> {
%e():
  STORE RELEASE <@i64> @flag1 @c1
  STORE RELEASE <@i64> @turn @c0
  BRANCH %try(@c1)
%try(<@i64> %n):
  %f = LOAD ACQUIRE <@i64> @flag0
  %z = EQ <@i64> %f @c0
  BRANCH2 %z %in() %more(%n)
%more(<@i64> %n):
  %t = LOAD ACQUIRE <@i64> @turn
  %mine = EQ <@i64> %t @c1
  BRANCH2 %mine %in() %again(%n)
%again(<@i64> %n):
  %m = SUB <@i64> %n @c1
  %z = EQ <@i64> %m @c0
  BRANCH2 %z %out() %try(%m)
%in():
  %n = LOAD <@i64> @count
  %m = ADD <@i64> %n @c1
  STORE <@i64> @count %m
  STORE RELEASE <@i64> @flag1 @c0
  RET (@c1)
%out():
  STORE RELEASE <@i64> @flag1 @c0
  RET (@c0)
}
.funcdef @main VERSION %v <@r1> {
%b():
  %s1 = COMMINST @uvm.new_stack <[@r1]> (@p1)
  %t1 = NEWTHREAD %s1 PASS_VALUES<> ()
  BRANCH %e()
%e():
  STORE RELEASE <@i64> @flag0 @c1
  STORE RELEASE <@i64> @turn @c1
  BRANCH %try(@c1)
%try(<@i64> %n):
  %f = LOAD ACQUIRE <@i64> @flag1
  %z = EQ <@i64> %f @c0
  BRANCH2 %z %in() %more(%n)
%more(<@i64> %n):
  %t = LOAD ACQUIRE <@i64> @turn
  %mine = EQ <@i64> %t @c0
  BRANCH2 %mine %in() %again(%n)
%again(<@i64> %n):
  %m = SUB <@i64> %n @c1
  %z = EQ <@i64> %m @c0
  BRANCH2 %z %out() %try(%m)
%in():
  %n = LOAD <@i64> @count
  %m = ADD <@i64> %n @c1
  STORE <@i64> @count %m
  STORE RELEASE <@i64> @flag0 @c0
  RET (@c1)
%out():
  STORE RELEASE <@i64> @flag0 @c0
  RET (@c0)
}
