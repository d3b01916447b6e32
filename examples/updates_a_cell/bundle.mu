.typedef @i8 = int<8>
.funcsig @six = () -> (@i8 @i8 @i8 @i8 @i8 @i8)
.const @one <@i8> = 1
.const @two <@i8> = 2
.const @three <@i8> = 3
.const @forty_two <@i8> = 42
.global @g <@i8>
.funcdef @main VERSION %v <@six> {
%begin():
  %a = ATOMICRMW SEQ_CST SUB <@i8> @g @two          // 0 - 2 wraps to 254; each update gives what was there before
  %b = ATOMICRMW ACQ_REL UMAX <@i8> @g @one         // without sign 254 is more than 1
  %c = ATOMICRMW RELEASE MAX <@i8> @g @one          // with sign it is -2, which is less
  %d = ATOMICRMW ACQUIRE NAND <@i8> @g @three       // the complement of 1 AND 3
  %e = ATOMICRMW RELAXED XCHG <@i8> @g @forty_two
  %f = LOAD <@i8> @g
  RET (%a %b %c %d %e %f)
}
