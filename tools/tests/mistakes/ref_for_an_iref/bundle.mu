// A ref is used where an internal reference is needed.
.typedef @i64 = int<64>
.typedef @pair = struct<@i64 @i64>
.funcsig @mi = () -> (@i64)
.funcdef @main VERSION %v <@mi> {
%e():
  %o = NEW <@pair>
  %p = GETFIELDIREF <@pair 0> %o
  %x = LOAD <@i64> %p
  RET (%x)
}
