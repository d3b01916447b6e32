// Objects are made in a loop.
.typedef @i64 = int<64>
.typedef @pair = struct<@i64 @i64>
.funcsig @none = () -> ()
.funcdef @main VERSION %v <@none> {
%e():
  %a = NEW <@i64>
  BRANCH %loop()
%loop():
  %o = NEW <@pair>
  BRANCH %loop()
}
