// Three elements, and two sources.
.typedef @i64 = int<64>
.typedef @node = struct<@i64 @next>
.typedef @next = ref<@node>
.typedef @row = array<@i64 3>
.global @first <@next>
.global @row_of_3 <@row>
.funcsig @none = () -> ()
.funcdef @main VERSION %v <@none> {
%e():
  RET ()
}
