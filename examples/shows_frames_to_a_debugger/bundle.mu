// A factorial whose innermost call asks the client for its result, as a program does that comes to a breakpoint.
.typedef @i1 = int<1>
.typedef @i64 = int<64>
.funcsig @mi = () -> (@i64)
.funcsig @up = (@i64) -> (@i64)
.const @zero <@i64> = 0
.const @one <@i64> = 1
.const @three <@i64> = 3
.funcdef @factorial VERSION %v <@up> {
%begin(<@i64> %n):
  %is_zero = EQ <@i64> %n @zero
  BRANCH2 %is_zero %ask(%n) %more(%n)
%ask(<@i64> %n):
  %result = TRAP <@i64> KEEPALIVE(%n)
  RET (%result)
%more(<@i64> %n):
  %less = SUB <@i64> %n @one
  %rest = CALL <@up> @factorial (%less) KEEPALIVE(%n %less)
  %result = MUL <@i64> %n %rest
  RET (%result)
}
.funcdef @main VERSION %v <@mi> {
%begin():
  %result = CALL <@up> @factorial (@three)
  RET (%result)
}
