.typedef @i = int<8> .global @g <@i>
