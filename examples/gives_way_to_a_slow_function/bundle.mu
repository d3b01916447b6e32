// A fast function gives way to a slow one, as compiled code does whose guess was wrong. @fast adds the numbers from %n down to 1, and
// guesses that the sum fits into 8 bits. Where it would not, it asks the client, and keeps what @slow needs to go on from there.
.typedef @i1 = int<1>
.typedef @i8 = int<8>
.typedef @i64 = int<64>
.funcsig @mi = () -> (@i64)
.funcsig @sum = (@i8 @i8) -> (@i64)
.const @none <@i8> = 0
.const @next <@i8> = 1
.const @thirty <@i8> = 30
.const @zero <@i64> = 0
.const @one <@i64> = 1
.funcdef @fast VERSION %v <@sum> {
%step(<@i8> %n <@i8> %sum):
  %more = ADD <@i8> %sum %n
  %is_wrong = ULT <@i8> %more %sum
  BRANCH2 %is_wrong %ask(%n %sum) %go_on(%n %more)
%ask(<@i8> %n <@i8> %sum):
  %result = TRAP <@i64> KEEPALIVE(%n %sum)
  RET (%result)
%go_on(<@i8> %n <@i8> %sum):
  %less = SUB <@i8> %n @next
  %is_last = EQ <@i8> %less @none
  BRANCH2 %is_last %end(%sum) %step(%less %sum)
%end(<@i8> %sum):
  %result = ZEXT <@i8 @i64> %sum
  RET (%result)
}
.funcdef @slow VERSION %v <@sum> {
%begin(<@i8> %n <@i8> %sum):
  %wide_n = ZEXT <@i8 @i64> %n
  %wide_sum = ZEXT <@i8 @i64> %sum
  BRANCH %step(%wide_n %wide_sum)
%step(<@i64> %n <@i64> %sum):
  %more = ADD <@i64> %sum %n
  %less = SUB <@i64> %n @one
  %is_last = EQ <@i64> %less @zero
  BRANCH2 %is_last %end(%more) %step(%less %more)
%end(<@i64> %sum):
  RET (%sum)
}
.funcdef @main VERSION %v <@mi> {
%begin():
  %result = CALL <@sum> @fast (@thirty @none)
  RET (%result)
}
