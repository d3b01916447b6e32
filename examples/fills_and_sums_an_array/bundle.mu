.typedef @i1 = int<1>
.typedef @i64 = int<64>
.typedef @row = array<@i64 3>
.typedef @place = iref<@row>
.funcsig @mi = () -> (@i64)
.const @zero <@i64> = 0
.const @one <@i64> = 1
.const @three <@i64> = 3
.funcdef @main VERSION %v <@mi> {
%begin():
  %row = ALLOCA <@row>
  BRANCH %fill(%row @zero)
%fill(<@place> %row <@i64> %i):
  %full = EQ <@i64> %i @three
  BRANCH2 %full %look(%row @zero @zero) %put(%row %i)
%put(<@place> %row <@i64> %i):
  %element = GETELEMIREF <@row @i64> %row %i
  %next = ADD <@i64> %i @one
  %square = MUL <@i64> %next %next
  STORE <@i64> %element %square
  BRANCH %fill(%row %next)
%look(<@place> %row <@i64> %i <@i64> %sum):
  %all = EQ <@i64> %i @three
  BRANCH2 %all %end(%sum) %take(%row %i %sum)
%take(<@place> %row <@i64> %i <@i64> %sum):
  %element = GETELEMIREF <@row @i64> %row %i
  %n = LOAD <@i64> %element
  %total = ADD <@i64> %sum %n
  %next = ADD <@i64> %i @one
  BRANCH %look(%row %next %total)
%end(<@i64> %sum):
  RET (%sum)
}
