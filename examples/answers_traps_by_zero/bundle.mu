// Asks the client for a place where the result is at hand, and how often it was asked. NULL says that there is none.
.typedef @i1 = int<1>
.typedef @i64 = int<64>
.typedef @place = iref<@i64>
.funcsig @mi = () -> (@i64)
.const @forty <@i64> = 40
.const @nowhere <@place> = NULL
.funcdef @main VERSION %v <@mi> {
%begin():
  (%place %n) = TRAP <@place @i64>
  %is_none = EQ <@place> %place @nowhere
  BRANCH2 %is_none %compute(%n) %take(%place)
%compute(<@i64> %n):
  %result = ADD <@i64> %n @forty
  RET (%result)
%take(<@place> %place):
  %result = LOAD <@i64> %place
  RET (%result)
}
