// The receiver looks at the flag until it is set. What it acquires with it makes the data known, which is not atomic.
.typedef @i1 = int<1>
.typedef @i64 = int<64>
.funcsig @none = () -> ()
.funcsig @mi = () -> (@i64)
.const @message <@i64> = 42
.const @yes <@i1> = 1
.global @data <@i64>
.global @ready <@i1>
.funcdef @receive VERSION %v <@mi> {
%look():
  %is_ready = LOAD ACQUIRE <@i1> @ready
  BRANCH2 %is_ready %take() %look()
%take():
  %n = LOAD <@i64> @data
  RET (%n)
}
.funcdef @main VERSION %v <@none> {
%e():
  %s = COMMINST @uvm.new_stack <[@mi]> (@receive)
  %t = NEWTHREAD %s PASS_VALUES<> ()
  STORE <@i64> @data @message
  STORE RELEASE <@i1> @ready @yes
  RET ()
}
