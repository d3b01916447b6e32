// There are no floating-point numbers.
.typedef @d = double
