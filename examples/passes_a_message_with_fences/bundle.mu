.typedef @i1 = int<1>
.typedef @i64 = int<64>
.funcsig @none = () -> ()
.funcsig @mi = () -> (@i64)
.const @zero <@i64> = 0
.const @message <@i64> = 42
.const @yes <@i1> = 1
.global @data <@i64>
.global @ready <@i1>
.funcdef @send VERSION %v <@none> {
%e():
  STORE <@i64> @data @message
  FENCE RELEASE
  STORE RELAXED <@i1> @ready @yes
  RET ()
}
.funcdef @receive VERSION %v <@mi> {
%e():
  %is_ready = LOAD RELAXED <@i1> @ready
  FENCE ACQUIRE
  BRANCH2 %is_ready %take() %go_without()
%take():
  %n = LOAD <@i64> @data
  RET (%n)
%go_without():
  RET (@zero)
}
.funcdef @main VERSION %v <@mi> {
%e():
  CALL <@none> @send ()
  %n = CALL <@mi> @receive ()
  RET (%n)
}
