// A writer counts up before and after it writes two cells; a reader looks at the count before and after it
// reads them. Asked: it takes a new and an old value. No.
.typedef @i1 = int<1>
.typedef @i64 = int<64>
.funcsig @r0 = () -> ()
.funcsig @r3 = () -> (@i64 @i64 @i64)
.const @c0 <@i64> = 0
.const @c1 <@i64> = 1
.const @c2 <@i64> = 2
.global @seq <@i64>
.global @a <@i64>
.global @b <@i64>
.funcdef @read VERSION %v <@r3> {
%e():
  %s = LOAD ACQUIRE <@i64> @seq
  %x = LOAD RELAXED <@i64> @a
  %y = LOAD RELAXED <@i64> @b
  FENCE ACQUIRE
  %t = LOAD RELAXED <@i64> @seq
  %odd = AND <@i64> %s @c1
  %same = EQ <@i64> %s %t
  %even = EQ <@i64> %odd @c0
  %ok = AND <@i1> %same %even
  BRANCH2 %ok %good(%x %y) %bad()
%good(<@i64> %x <@i64> %y):
  RET (@c1 %x %y)
%bad():
  RET (@c0 @c0 @c0)
}
.funcdef @main VERSION %v <@r0> {
%b():
  %s1 = COMMINST @uvm.new_stack <[@r3]> (@read)
  %t1 = NEWTHREAD %s1 PASS_VALUES<> ()
  STORE RELAXED <@i64> @seq @c1
  FENCE RELEASE
  STORE RELAXED <@i64> @a @c1
  STORE RELAXED <@i64> @b @c1
  STORE RELEASE <@i64> @seq @c2
  RET ()
}
