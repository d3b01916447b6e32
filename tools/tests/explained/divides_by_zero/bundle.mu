// The divisor is 0.
.typedef @i64 = int<64>
.funcsig @up = (@i64) -> (@i64)
.funcsig @mi = () -> (@i64)
.const @one <@i64> = 1
.const @zero <@i64> = 0
.funcdef @inverse VERSION %v <@up> {
%e(<@i64> %n):
  %q = UDIV <@i64> @one %n
  RET (%q)
}
.funcdef @main VERSION %v <@mi> {
%e():
  %n = CALL <@up> @inverse (@zero)
  RET (%n)
}
