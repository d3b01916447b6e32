// Follows a place that a script gave, and reads the second field of the object there.
.typedef @i64 = int<64>
.typedef @pair = struct<@i64 @i64>
.typedef @place = iref<@pair>
.global @given <@place>
.funcsig @main_sig = () -> (@i64)
.funcdef @main VERSION %v1 <@main_sig> {
%entry():
  %p = LOAD <@place> @given
  %q = GETFIELDIREF <@pair 1> %p
  %n = LOAD <@i64> %q
  RET (%n)
}
