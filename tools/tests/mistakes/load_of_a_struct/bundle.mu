// Each access is of one scalar.
.typedef @i64 = int<64>
.typedef @pair = struct<@i64 @i64>
.funcsig @mi = () -> (@i64)
.const @one <@i64> = 1
.funcdef @main VERSION %v <@mi> {
%e():
  %o = NEW <@pair>
  %p = GETIREF <@pair> %o
  %v = LOAD <@pair> %p
  RET (@one)
}
