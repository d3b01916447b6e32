// Two threads take turns for ever; where they stand is found by following them step by step.
.typedef @i64 = int<64>
.funcsig @none = () -> ()
.const @one <@i64> = 1
.global @x <@i64>
.global @y <@i64>
.funcdef @spins VERSION %v <@none> {
%e():
  BRANCH %loop()
%loop():
  STORE RELAXED <@i64> @y @one
  BRANCH %loop()
}
.funcdef @main VERSION %v <@none> {
%e():
  %s = COMMINST @uvm.new_stack <[@none]> (@spins)
  %t = NEWTHREAD %s PASS_VALUES<> ()
  BRANCH %loop()
%loop():
  STORE RELAXED <@i64> @x @one
  BRANCH %loop()
}
