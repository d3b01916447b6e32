.typedef @i1 = int<1>
.typedef @i64 = int<64>
.funcsig @mi = () -> (@i64)
.const @zero <@i64> = 0
.const @one <@i64> = 1
.const @ten <@i64> = 10
.funcdef @main VERSION %v <@mi> {
%begin():
  BRANCH %loop(@zero @ten)
%loop(<@i64> %sum <@i64> %n):
  %is_zero = EQ <@i64> %n @zero
  BRANCH2 %is_zero %end(%sum) %more(%sum %n)
%more(<@i64> %sum <@i64> %n):
  %next = ADD <@i64> %sum %n
  %less = SUB <@i64> %n @one
  BRANCH %loop(%next %less)
%end(<@i64> %sum):
  RET (%sum)
}
