.funcsig @m = () -> ()
.funcdecl @main <@m>
