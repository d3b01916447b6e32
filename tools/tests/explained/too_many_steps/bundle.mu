// A run makes at most 1,000,000 steps.
.funcsig @none = () -> ()
.funcdef @main VERSION %v <@none> {
%e():
  RET ()
}
