// Store buffering: each thread writes its own cell and then reads that of the other. By this schedule both read the old value.
.typedef @i64 = int<64>
.funcsig @mi = () -> (@i64)
.const @one <@i64> = 1
.global @x <@i64>
.global @y <@i64>
.funcdef @other VERSION %v <@mi> {
%e():
  STORE RELAXED <@i64> @y @one
  %n = LOAD RELAXED <@i64> @x
  RET (%n)
}
.funcdef @main VERSION %v <@mi> {
%e():
  %s = COMMINST @uvm.new_stack <[@mi]> (@other)
  %t = NEWTHREAD %s PASS_VALUES<> ()
  STORE RELAXED <@i64> @x @one
  %n = LOAD RELAXED <@i64> @y
  RET (%n)
}
