// Two threads draw tickets, and look twice whether theirs is served. Asked: a race. No.
.typedef @i64 = int<64>
.funcsig @r1 = () -> (@i64)
.const @c0 <@i64> = 0
.const @c1 <@i64> = 1
.const @c2 <@i64> = 2
.global @next <@i64>
.global @served <@i64>
.global @count <@i64>
.funcdef @add VERSION %v <@r1> {
%e():
  %mine = ATOMICRMW RELAXED ADD <@i64> @next @c1
  BRANCH %try(%mine @c2)
%try(<@i64> %mine <@i64> %n):
  %s = LOAD ACQUIRE <@i64> @served
  %z = EQ <@i64> %s %mine
  BRANCH2 %z %in(%mine) %again(%mine %n)
%again(<@i64> %mine <@i64> %n):
  %m = SUB <@i64> %n @c1
  %z = EQ <@i64> %m @c0
  BRANCH2 %z %out() %try(%mine %m)
%in(<@i64> %mine):
  %n = LOAD <@i64> @count
  %m = ADD <@i64> %n @c1
  STORE <@i64> @count %m
  %k = ADD <@i64> %mine @c1
  STORE RELEASE <@i64> @served %k
  RET (@c1)
%out():
  RET (@c0)
}
.funcdef @main VERSION %v <@r1> {
%b():
  %s1 = COMMINST @uvm.new_stack <[@r1]> (@add)
  %t1 = NEWTHREAD %s1 PASS_VALUES<> ()
  %r = CALL <@r1> @add ()
  RET (%r)
}
