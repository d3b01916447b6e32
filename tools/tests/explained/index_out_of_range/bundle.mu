// An index that the array does not have.
.typedef @i64 = int<64>
.typedef @row = array<@i64 4>
.funcsig @mi = () -> (@i64)
.const @four <@i64> = 4
.global @cells <@row>
.funcdef @main VERSION %v <@mi> {
%e():
  %p = GETELEMIREF <@row @i64> @cells @four
  %n = LOAD <@i64> %p
  RET (%n)
}
