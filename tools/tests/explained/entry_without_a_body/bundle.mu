// The entry is only declared.
.funcsig @none = () -> ()
.funcdecl @main <@none>
