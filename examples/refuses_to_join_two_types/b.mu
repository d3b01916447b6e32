.typedef @i = int<16>
