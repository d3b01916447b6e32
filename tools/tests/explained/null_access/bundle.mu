// A load through NULL.
.typedef @i64 = int<64>
.typedef @ptr = iref<@i64>
.funcsig @mi = () -> (@i64)
.const @null <@ptr> = NULL
.global @place <@ptr>
.funcdef @main VERSION %v <@mi> {
%e():
  %p = LOAD <@ptr> @place
  %n = LOAD <@i64> %p
  RET (%n)
}
