// One thread spins, and the other was never picked.
.typedef @i64 = int<64>
.typedef @i1 = int<1>
.funcsig @none = () -> ()
.global @flag <@i64>
.const @one <@i64> = 1
.funcdef @sets VERSION %v <@none> {
%e():
  STORE RELEASE <@i64> @flag @one
  RET ()
}
.funcdef @main VERSION %v <@none> {
%e():
  %s = COMMINST @uvm.new_stack <[@none]> (@sets)
  %t = NEWTHREAD %s PASS_VALUES<> ()
  BRANCH %spin()
%spin():
  %f = LOAD ACQUIRE <@i64> @flag
  %set = EQ <@i64> %f @one
  BRANCH2 %set %done() %spin()
%done():
  RET ()
}
