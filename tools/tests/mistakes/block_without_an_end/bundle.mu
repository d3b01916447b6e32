// A block does not go on into the next one by itself.
.typedef @i64 = int<64>
.funcsig @mi = () -> (@i64)
.const @one <@i64> = 1
.funcdef @main VERSION %v <@mi> {
%e():
  %x = ADD <@i64> @one @one
%next():
  RET (@one)
}
