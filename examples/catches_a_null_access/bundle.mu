.typedef @i64 = int<64>
.typedef @place = iref<@i64>
.funcsig @get = (@place @i64) -> (@i64)
.funcsig @mi = () -> (@i64)
.const @zero <@i64> = 0
.const @two <@i64> = 2
.const @forty <@i64> = 40
.const @nowhere <@place> = NULL
.global @g <@i64>
.funcdef @value_or VERSION %v <@get> {
%e(<@place> %p <@i64> %otherwise):
  %n = LOAD <@i64> %p EXC(%there(%n) %not_there(%otherwise))
%there(<@i64> %n):
  RET (%n)
%not_there(<@i64> %n) [%exception]:       // the exception is NULL
  RET (%n)
}
.funcdef @main VERSION %v <@mi> {
%e():
  STORE <@i64> @g @forty
  %a = CALL <@get> @value_or (@g @zero)
  %b = CALL <@get> @value_or (@nowhere @two)
  %c = ADD <@i64> %a %b
  RET (%c)
}
