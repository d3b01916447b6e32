// The runtime library is missing.
.funcsig @none = () -> ()
.funcdecl @library <@none>
.funcdef @main VERSION %v <@none> {
%e():
  CALL <@none> @library ()
  RET ()
}
