// A variable gets a second value.
.typedef @i64 = int<64>
.funcsig @mi = () -> (@i64)
.const @one <@i64> = 1
.funcdef @main VERSION %v <@mi> {
%e():
  %a = ADD <@i64> @one @one
  %a = ADD <@i64> %a @one
  RET (%a)
}
