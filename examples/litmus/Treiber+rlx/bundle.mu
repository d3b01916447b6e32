// A stack as a list whose head is RELAXED: one thread pushes, one pops. Asked: a race. Yes.
.typedef @i64 = int<64>
.funcsig @r1 = () -> (@i64)
.funcsig @in1 = (@i64) -> (@i64)
.const @c0 <@i64> = 0
.const @c1 <@i64> = 1
.const @c2 <@i64> = 2
.typedef @nodes = array<@i64 5>
.global @head <@i64>
.global @next <@nodes>
.global @data <@nodes>
.funcdef @push VERSION %v <@in1> {
%e(<@i64> %node):
  %d = GETELEMIREF <@nodes @i64> @data %node
  STORE <@i64> %d %node
  BRANCH %try(%node @c2)
%try(<@i64> %node <@i64> %n):
  %h = LOAD RELAXED <@i64> @head
  %x = GETELEMIREF <@nodes @i64> @next %node
  STORE <@i64> %x %h
  (%was %won) = CMPXCHG RELAXED RELAXED <@i64> @head %h %node
  BRANCH2 %won %in() %again(%node %n)
%again(<@i64> %node <@i64> %n):
  %m = SUB <@i64> %n @c1
  %z = EQ <@i64> %m @c0
  BRANCH2 %z %out() %try(%node %m)
%in():
  RET (@c1)
%out():
  RET (@c0)
}
.funcdef @pop VERSION %v <@r1> {
%e():
  BRANCH %try(@c2)
%try(<@i64> %n):
  %h = LOAD RELAXED <@i64> @head
  %z = EQ <@i64> %h @c0
  BRANCH2 %z %empty() %take(%h %n)
%take(<@i64> %h <@i64> %n):
  %x = GETELEMIREF <@nodes @i64> @next %h
  %k = LOAD <@i64> %x
  (%was %won) = CMPXCHG RELAXED RELAXED <@i64> @head %h %k
  BRANCH2 %won %in(%h) %again(%n)
%again(<@i64> %n):
  %m = SUB <@i64> %n @c1
  %z = EQ <@i64> %m @c0
  BRANCH2 %z %empty() %try(%m)
%in(<@i64> %h):
  %d = GETELEMIREF <@nodes @i64> @data %h
  %v = LOAD <@i64> %d
  RET (%v)
%empty():
  RET (@c0)
}
.funcdef @p1 VERSION %v <@r1> {
%e():
  %o0 = CALL <@r1> @pop ()
  RET (%o0)
}
.funcdef @main VERSION %v <@r1> {
%b():
  %s1 = COMMINST @uvm.new_stack <[@r1]> (@p1)
  %t1 = NEWTHREAD %s1 PASS_VALUES<> ()
  %o0 = CALL <@in1> @push (@c1)
  RET (%o0)
}
