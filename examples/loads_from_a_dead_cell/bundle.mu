.typedef @i64 = int<64>
.typedef @place = iref<@i64>
.funcsig @mp = () -> (@place)
.funcsig @mi = () -> (@i64)
.const @forty_two <@i64> = 42
.funcdef @own VERSION %v <@mp> {
%e():
  %p = ALLOCA <@i64>
  STORE <@i64> %p @forty_two
  RET (%p)                                // here the frame ends, and the cell with it
}
.funcdef @main VERSION %v <@mi> {
%e():
  %p = CALL <@mp> @own ()
  %n = LOAD <@i64> %p
  RET (%n)
}
