// RET has its brackets even where they are empty.
.funcsig @none = () -> ()
.funcdef @main VERSION %v <@none> {
%e():
  RET
}
