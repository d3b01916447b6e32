.typedef @i1 = int<1>
.typedef @i64 = int<64>
.funcsig @mi = () -> (@i64)
.funcsig @up = (@i64) -> (@i64)
.const @one <@i64> = 1
.const @two <@i64> = 2
.const @ten <@i64> = 10
.funcdef @fib VERSION %v <@up> {
%begin(<@i64> %n):
  %small = ULT <@i64> %n @two
  BRANCH2 %small %end(%n) %more(%n)
%end(<@i64> %n):
  RET (%n)
%more(<@i64> %n):
  %m = SUB <@i64> %n @one
  %a = CALL <@up> @fib (%m)
  %k = SUB <@i64> %n @two
  %b = CALL <@up> @fib (%k)
  %sum = ADD <@i64> %a %b
  RET (%sum)
}
.funcdef @main VERSION %v <@mi> {
%begin():
  %x = CALL <@up> @fib (@ten)
  RET (%x)
}
