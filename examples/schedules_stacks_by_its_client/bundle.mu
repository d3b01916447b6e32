// Two tasks on stacks of their own yield by a trap. Which stack goes on is the client's to say; the tasks tell it which there are.
.typedef @i64 = int<64>
.typedef @stack = stackref
.funcsig @mi = () -> (@i64)
.funcsig @works = (@stack @stack @i64) -> ()
.const @one <@i64> = 1
.const @ten <@i64> = 10
.const @twenty <@i64> = 20
.global @seen <@i64>
.funcdef @task VERSION %v <@works> {
%begin(<@stack> %other <@stack> %caller <@i64> %n):
  %own = COMMINST @uvm.current_stack ()
  STORE <@i64> @seen %n
  TRAP <> KEEPALIVE(%own %other %caller)
  %m = ADD <@i64> %n @one
  STORE <@i64> @seen %m
  TRAP <> KEEPALIVE(%own %other %caller)
  RET ()
}
.funcdef @main VERSION %v <@mi> {
%begin():
  %first = COMMINST @uvm.new_stack <[@works]> (@task)
  %second = COMMINST @uvm.new_stack <[@works]> (@task)
  %own = COMMINST @uvm.current_stack ()
  TRAP <> KEEPALIVE(%first %second %own)
  %n = LOAD <@i64> @seen
  RET (%n)
}
