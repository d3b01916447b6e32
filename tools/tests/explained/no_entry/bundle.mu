// run needs an entry.
.funcsig @none = () -> ()
.funcdef @main VERSION %v <@none> {
%e():
  RET ()
}
