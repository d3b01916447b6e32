// check takes one file.
.funcsig @none = () -> ()
