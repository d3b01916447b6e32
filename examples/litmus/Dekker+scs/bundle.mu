// Dekker's way in, one try each, all SEQ_CST. Asked: both threads come in, which is a race. No.
.typedef @i64 = int<64>
.funcsig @r1 = () -> (@i64)
.const @c0 <@i64> = 0
.const @c1 <@i64> = 1
.global @flag0 <@i64>
.global @flag1 <@i64>
.global @count <@i64>
.funcdef @p1 VERSION %v <@r1> {
%e():
  STORE SEQ_CST <@i64> @flag1 @c1
  %o = LOAD SEQ_CST <@i64> @flag0
  %z = EQ <@i64> %o @c0
  BRANCH2 %z %in() %out()
%in():
  %n = LOAD <@i64> @count
  %m = ADD <@i64> %n @c1
  STORE <@i64> @count %m
  RET (@c1)
%out():
  RET (@c0)
}
.funcdef @main VERSION %v <@r1> {
%b():
  %s1 = COMMINST @uvm.new_stack <[@r1]> (@p1)
  %t1 = NEWTHREAD %s1 PASS_VALUES<> ()
  BRANCH %e()
%e():
  STORE SEQ_CST <@i64> @flag0 @c1
  %o = LOAD SEQ_CST <@i64> @flag1
  %z = EQ <@i64> %o @c0
  BRANCH2 %z %in() %out()
%in():
  %n = LOAD <@i64> @count
  %m = ADD <@i64> %n @c1
  STORE <@i64> @count %m
  RET (@c1)
%out():
  RET (@c0)
}
