// A tail call returns what its function returns.
.typedef @i64 = int<64>
.funcsig @mi = () -> (@i64)
.funcsig @none = () -> ()
.funcdef @nothing VERSION %v <@none> {
%e():
  RET ()
}
.funcdef @main VERSION %v <@mi> {
%e():
  TAILCALL <@none> @nothing ()
}
