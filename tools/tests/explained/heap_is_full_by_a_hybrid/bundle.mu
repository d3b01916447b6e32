// An array of a thousand elements does not fit.
.typedef @i64 = int<64>
.typedef @many = hybrid<@i64>
.funcsig @none = () -> ()
.const @thousand <@i64> = 1000
.funcdef @main VERSION %v <@none> {
%e():
  %o = NEWHYBRID <@many @i64> @thousand
  RET ()
}
