// The schedule does not exist.
.funcsig @none = () -> ()
.funcdef @main VERSION %v <@none> {
%e():
  RET ()
}
