// A type is written as its name.
.typedef @i64 = int<64>
.funcsig @mi = () -> (@i64)
.const @one <@i64> = 1
.funcdef @main VERSION %v <@mi> {
%e():
  %x = ADD <int<64>> @one @one
  RET (%x)
}
