// No frame has a destination for the exception.
.typedef @void = void
.typedef @any = ref<@void>
.funcsig @none = () -> ()
.const @null <@any> = NULL
.funcdef @throws VERSION %v <@none> {
%e():
  THROW @null
}
.funcdef @main VERSION %v <@none> {
%e():
  CALL <@none> @throws ()
  RET ()
}
