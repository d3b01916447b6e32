// The client asks for a value that no KEEPALIVE keeps.
.typedef @i64 = int<64>
.funcsig @mi = () -> (@i64)
.const @one <@i64> = 1
.funcdef @main VERSION %v <@mi> {
%e():
  %x = ADD <@i64> @one @one
  %y = TRAP <@i64>
  %z = ADD <@i64> %x %y
  RET (%z)
}
