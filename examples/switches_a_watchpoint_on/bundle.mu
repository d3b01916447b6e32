// Sums 3, 2 and 1. Each turn comes to a watchpoint, which is passed by as long as nobody enables it.
.typedef @i1 = int<1>
.typedef @i64 = int<64>
.funcsig @mi = () -> (@i64)
.const @zero <@i64> = 0
.const @one <@i64> = 1
.const @three <@i64> = 3
.funcdef @main VERSION %v <@mi> {
%begin():
  TRAP <>
  BRANCH %turn(@zero @three)
%turn(<@i64> %sum <@i64> %n):
  WATCHPOINT 1 <> %add(%sum %n) %add(%sum %n) KEEPALIVE(%sum %n)
%add(<@i64> %sum <@i64> %n):
  %total = ADD <@i64> %sum %n
  %less = SUB <@i64> %n @one
  %is_zero = EQ <@i64> %less @zero
  BRANCH2 %is_zero %end(%total) %turn(%total %less)
%end(<@i64> %sum):
  RET (%sum)
}
