// A generator on a stack of its own passes the squares of 1, 2 and 3 one by one, and the caller adds them.
.typedef @i1 = int<1>
.typedef @i64 = int<64>
.typedef @stack = stackref
.funcsig @generator = (@stack) -> ()
.funcsig @mi = () -> (@i64)
.const @no <@i1> = 0
.const @yes <@i1> = 1
.const @zero <@i64> = 0
.const @one <@i64> = 1
.const @four <@i64> = 4
.funcdef @squares VERSION %v <@generator> {
%e(<@stack> %caller):
  BRANCH %next(%caller @one)
%next(<@stack> %caller <@i64> %n):
  %square = MUL <@i64> %n %n
  SWAPSTACK %caller RET_WITH<> PASS_VALUES<@i1 @i64> (@yes %square)
  %m = ADD <@i64> %n @one
  %is_more = ULT <@i64> %m @four
  BRANCH2 %is_more %next(%caller %m) %end(%caller)
%end(<@stack> %caller):
  SWAPSTACK %caller KILL_OLD PASS_VALUES<@i1 @i64> (@no @zero)     // no more; nobody comes back here
}
.funcdef @main VERSION %v <@mi> {
%e():
  %s = COMMINST @uvm.new_stack <[@generator]> (@squares)
  %own = COMMINST @uvm.current_stack ()
  (%is_one %n) = SWAPSTACK %s RET_WITH<@i1 @i64> PASS_VALUES<@stack> (%own)
  BRANCH %look(%s %is_one %n @zero)
%look(<@stack> %s <@i1> %is_one <@i64> %n <@i64> %sum):
  BRANCH2 %is_one %add(%s %n %sum) %end(%sum)
%add(<@stack> %s <@i64> %n <@i64> %sum):
  %total = ADD <@i64> %sum %n
  (%is_one %m) = SWAPSTACK %s RET_WITH<@i1 @i64> PASS_VALUES<> ()
  BRANCH %look(%s %is_one %m %total)
%end(<@i64> %sum):
  RET (%sum)
}
