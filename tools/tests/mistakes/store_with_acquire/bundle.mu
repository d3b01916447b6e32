// No STORE is an ACQUIRE.
.typedef @i64 = int<64>
.funcsig @mi = () -> (@i64)
.const @one <@i64> = 1
.global @total <@i64>
.funcdef @main VERSION %v <@mi> {
%e():
  STORE ACQUIRE <@i64> @total @one
  RET (@one)
}
