// Two threads take a lock, and wait where it is taken. Asked: the count is not 2, or a thread waits forever.
// No.
.typedef @i32 = int<32>
.typedef @i64 = int<64>
.funcsig @r1 = () -> (@i64)
.const @c0 <@i64> = 0
.const @c1 <@i64> = 1
.const @c2 <@i64> = 2
.const @c3 <@i64> = 3
.const @one32 <@i32> = 1
.global @lock <@i64>
.global @count <@i64>
.funcdef @add VERSION %v <@r1> {
%e():
  (%was %won) = CMPXCHG ACQUIRE RELAXED <@i64> @lock @c0 @c1
  BRANCH2 %won %in() %slow(@c3)
%slow(<@i64> %n):
  %old = ATOMICRMW ACQUIRE XCHG <@i64> @lock @c2
  %z = EQ <@i64> %old @c0
  BRANCH2 %z %in() %sleep(%n)
%sleep(<@i64> %n):
  %z = EQ <@i64> %n @c0
  BRANCH2 %z %out() %wait(%n)
%wait(<@i64> %n):
  %w = COMMINST @uvm.futex.wait <@i64> (@lock @c2)
  %m = SUB <@i64> %n @c1
  BRANCH %slow(%m)
%in():
  %n = LOAD <@i64> @count
  %m = ADD <@i64> %n @c1
  STORE <@i64> @count %m
  %o = ATOMICRMW RELEASE XCHG <@i64> @lock @c0
  %z = EQ <@i64> %o @c2
  BRANCH2 %z %wake() %end()
%wake():
  %k = COMMINST @uvm.futex.wake <@i64> (@lock @one32)
  BRANCH %end()
%end():
  RET (@c1)
%out():
  RET (@c0)
}
.funcdef @main VERSION %v <@r1> {
%b():
  %s1 = COMMINST @uvm.new_stack <[@r1]> (@add)
  %t1 = NEWTHREAD %s1 PASS_VALUES<> ()
  %r = CALL <@r1> @add ()
  RET (%r)
}
