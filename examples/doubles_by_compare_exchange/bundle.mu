.typedef @i1 = int<1>
.typedef @i64 = int<64>
.funcsig @mi = () -> (@i64)
.const @zero <@i64> = 0
.const @two <@i64> = 2
.const @twenty_one <@i64> = 21
.global @cell <@i64>
.funcdef @main VERSION %v <@mi> {
%begin():
  STORE RELAXED <@i64> @cell @twenty_one
  BRANCH %try(@zero)                      // a wrong guess at what the cell holds
%try(<@i64> %guess):
  %double = MUL <@i64> %guess @two
  (%seen %done) = CMPXCHG SEQ_CST RELAXED <@i64> @cell %guess %double
  BRANCH2 %done %end() %try(%seen)        // what was read is the next guess
%end():
  %n = LOAD RELAXED <@i64> @cell
  RET (%n)
}
