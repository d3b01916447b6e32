// An object of one int is no pair.
.typedef @i64 = int<64>
.typedef @pair = struct<@i64 @i64>
.typedef @one_int = ref<@i64>
.typedef @to_pair = ref<@pair>
.funcsig @none = () -> ()
.funcdef @main VERSION %v <@none> {
%e():
  %o = NEW <@i64>
  %p = REFCAST <@one_int @to_pair> %o
  RET ()
}
