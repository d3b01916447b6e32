// The lock is taken RELAXED. Asked: a race. Yes: who takes it need not know what was done under it.
.typedef @i64 = int<64>
.funcsig @won = () -> (@i64)
.const @free <@i64> = 0
.const @taken <@i64> = 1
.global @lock <@i64>
.global @count <@i64>
.funcdef @add VERSION %v <@won> {
%try():
  (%was %won) = CMPXCHG RELAXED RELAXED <@i64> @lock @free @taken
  BRANCH2 %won %in() %out()
%in():
  %n = LOAD <@i64> @count
  %m = ADD <@i64> %n @taken
  STORE <@i64> @count %m
  STORE RELEASE <@i64> @lock @free
  RET (@taken)
%out():
  RET (@free)
}
.funcdef @main VERSION %v <@won> {
%e():
  %s = COMMINST @uvm.new_stack <[@won]> (@add)
  %t = NEWTHREAD %s PASS_VALUES<> ()
  BRANCH %try()
%try():
  (%was %won) = CMPXCHG RELAXED RELAXED <@i64> @lock @free @taken
  BRANCH2 %won %in() %out()
%in():
  %n = LOAD <@i64> @count
  %m = ADD <@i64> %n @taken
  STORE <@i64> @count %m
  STORE RELEASE <@i64> @lock @free
  RET (@taken)
%out():
  RET (@free)
}
