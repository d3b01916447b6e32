.typedef @i1 = int<1>
.typedef @i64 = int<64>
.typedef @void = void
.typedef @any = ref<@void>
.funcsig @none = () -> ()
.funcsig @mi = () -> (@i64)
.const @one <@i64> = 1
.const @two <@i64> = 2
.const @null <@any> = NULL
.funcdef @fail VERSION %v <@none> {
%e():
  THROW @null
}
.funcdef @main VERSION %v <@mi> {
%e():
  CALL <@none> @fail () EXC(%normal() %failed(@two))
%normal():
  RET (@one)
%failed(<@i64> %n) [%exception]:
  RET (%n)
}
