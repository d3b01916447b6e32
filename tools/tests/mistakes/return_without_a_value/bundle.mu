// The function returns one value.
.typedef @i64 = int<64>
.funcsig @mi = () -> (@i64)
.funcdef @main VERSION %v <@mi> {
%e():
  RET ()
}
