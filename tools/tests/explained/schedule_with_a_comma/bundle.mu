// Numbers stand without commas.
.funcsig @none = () -> ()
.funcdef @main VERSION %v <@none> {
%e():
  RET ()
}
