// A function that was never stored is called.
.funcsig @none = () -> ()
.typedef @function = funcref<@none>
.global @hook <@function>
.funcdef @main VERSION %v <@none> {
%e():
  %f = LOAD <@function> @hook
  CALL <@none> %f ()
  RET ()
}
