// A stack is entered again after its function returned.
.typedef @i64 = int<64>
.funcsig @none = () -> ()
.typedef @stack = stackref
.funcsig @coroutine = (@stack) -> ()
.funcdef @once VERSION %v <@coroutine> {
%e(<@stack> %back):
  SWAPSTACK %back KILL_OLD PASS_VALUES<> ()
}
.funcdef @main VERSION %v <@none> {
%e():
  %s = COMMINST @uvm.new_stack <[@coroutine]> (@once)
  %own = COMMINST @uvm.current_stack ()
  SWAPSTACK %s RET_WITH<> PASS_VALUES<@stack> (%own)
  SWAPSTACK %s RET_WITH<> PASS_VALUES<@stack> (%own)
  RET ()
}
