.typedef @a = int<32>
.typedef @b = int<64>
.funcsig @s = (@a) -> ()
.funcdef @f VERSION %v <@s> {
%e(<@a> %x): %y = ADD <@b> %x %x
RET () }
.funcdef @g VERSION %v <@t> {
%e(<@a> %x): RET () }
