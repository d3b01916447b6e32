.typedef @i1 = int<1>
.typedef @i64 = int<64>
.typedef @node = struct<@i64 @list>
.typedef @list = ref<@node>
.funcsig @put = (@i64 @list) -> (@list)
.funcsig @adds = (@list) -> (@i64)
.funcsig @mi = () -> (@i64)
.const @zero <@i64> = 0
.const @two <@i64> = 2
.const @forty <@i64> = 40
.const @nil <@list> = NULL
.funcdef @in_front VERSION %v <@put> {
%e(<@i64> %n <@list> %rest):
  %o = NEW <@node>
  %p = GETIREF <@node> %o
  %value = GETFIELDIREF <@node 0> %p
  STORE <@i64> %value %n
  %next = GETFIELDIREF <@node 1> %p
  STORE <@list> %next %rest
  RET (%o)
}
.funcdef @sum VERSION %v <@adds> {
%begin(<@list> %l):
  BRANCH %look(%l @zero)
%look(<@list> %l <@i64> %sum):
  %is_end = EQ <@list> %l @nil
  BRANCH2 %is_end %end(%sum) %more(%l %sum)
%more(<@list> %l <@i64> %sum):
  %p = GETIREF <@node> %l
  %value = GETFIELDIREF <@node 0> %p
  %n = LOAD <@i64> %value
  %total = ADD <@i64> %sum %n
  %next = GETFIELDIREF <@node 1> %p
  %rest = LOAD <@list> %next
  BRANCH %look(%rest %total)
%end(<@i64> %sum):
  RET (%sum)
}
.funcdef @main VERSION %v <@mi> {
%e():
  %last = CALL <@put> @in_front (@two @nil)
  %first = CALL <@put> @in_front (@forty %last)
  %sum = CALL <@adds> @sum (%first)
  RET (%sum)
}
