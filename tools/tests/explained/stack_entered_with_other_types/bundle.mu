// The function of the stack takes an int.
.typedef @i64 = int<64>
.funcsig @up = (@i64) -> (@i64)
.funcsig @none = () -> ()
.funcdef @same VERSION %v <@up> {
%e(<@i64> %n):
  RET (%n)
}
.funcdef @main VERSION %v <@none> {
%e():
  %s = COMMINST @uvm.new_stack <[@up]> (@same)
  %t = NEWTHREAD %s PASS_VALUES<> ()
  RET ()
}
