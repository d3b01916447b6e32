// A comment begins with //.
.typedef @i64 = int<64>
; a number of 64 bits
