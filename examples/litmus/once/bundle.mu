// Two threads use data that the first one to come makes, by RELEASE and ACQUIRE. Asked: a race. No.
.typedef @i64 = int<64>
.funcsig @r1 = () -> (@i64)
.const @c0 <@i64> = 0
.const @c1 <@i64> = 1
.const @c2 <@i64> = 2
.global @done <@i64>
.global @lock <@i64>
.global @data <@i64>
.funcdef @get VERSION %v <@r1> {
%e():
  %d = LOAD ACQUIRE <@i64> @done
  %z = EQ <@i64> %d @c1
  BRANCH2 %z %use() %lock()
%lock():
  %o = ATOMICRMW ACQUIRE XCHG <@i64> @lock @c1
  %z = EQ <@i64> %o @c0
  BRANCH2 %z %init() %none()
%init():
  STORE <@i64> @data @c2
  STORE RELEASE <@i64> @done @c1
  BRANCH %use()
%use():
  %v = LOAD <@i64> @data
  RET (%v)
%none():
  RET (@c0)
}
.funcdef @main VERSION %v <@r1> {
%b():
  %s1 = COMMINST @uvm.new_stack <[@r1]> (@get)
  %t1 = NEWTHREAD %s1 PASS_VALUES<> ()
  %r = CALL <@r1> @get ()
  RET (%r)
}
