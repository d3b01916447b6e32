.typedef @i1 = int<1> .typedef @i8 = int<8> .typedef @i32 = int<32> .typedef @i64 = int<64>
.typedef @void = void .typedef @rv = ref<@void> .typedef @st = stackref
.funcsig @m = () -> () .funcsig @mi = () -> (@i64) .funcsig @gs = (@st) -> ()
.const @c0 <@i64> = 0 .const @c1 <@i64> = 1 .const @c2 <@i64> = 2 .const @c10 <@i64> = 10
.const @c40 <@i64> = 40 .const @n2 <@i64> = -2 .const @w1 <@i32> = 1 .const @nul <@rv> = NULL
.typedef @la = struct<@i64 @ra> .typedef @ra = ref<@la>
.typedef @lb = struct<@i64 @rb> .typedef @rb = ref<@lb>
.funcsig @f = (@ra) -> (@i64) .const @n <@rb> = NULL
.funcdef @g VERSION %v <@f> {
%e(<@ra> %p):
  %q = EQ <@rb> %p @n
  %z = ZEXT <@i1 @i64> %q
  RET (%z)
}
.funcdef @main VERSION %v <@mi> {
%e():
  %r = CALL <@f> @g (@n)
  RET (%r)
}
