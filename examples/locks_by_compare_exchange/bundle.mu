// Two threads count in a cell that is not atomic, each while it holds the lock. The second finds the lock taken at first.
.typedef @i1 = int<1>
.typedef @i64 = int<64>
.funcsig @none = () -> ()
.const @free <@i1> = 0
.const @taken <@i1> = 1
.const @one <@i64> = 1
.global @lock <@i1>
.global @count <@i64>
.funcdef @add VERSION %v <@none> {
%try():
  (%was %is_mine) = CMPXCHG ACQUIRE RELAXED <@i1> @lock @free @taken
  BRANCH2 %is_mine %add() %try()
%add():
  %n = LOAD <@i64> @count
  %m = ADD <@i64> %n @one
  STORE <@i64> @count %m
  STORE RELEASE <@i1> @lock @free
  RET ()
}
.funcdef @main VERSION %v <@none> {
%e():
  %s = COMMINST @uvm.new_stack <[@none]> (@add)
  %t = NEWTHREAD %s PASS_VALUES<> ()
  CALL <@none> @add ()
  RET ()
}
