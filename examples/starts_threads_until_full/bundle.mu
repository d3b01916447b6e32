// Thread 0 makes threads in a loop; without a schedule it alone makes steps. 64 threads are made in a run, itself among them.
.funcsig @none = () -> ()
.funcdef @rest VERSION %v <@none> {
%e():
  RET ()
}
.funcdef @main VERSION %v <@none> {
%more():
  %s = COMMINST @uvm.new_stack <[@none]> (@rest)
  %t = NEWTHREAD %s PASS_VALUES<> ()
  BRANCH %more()
}
