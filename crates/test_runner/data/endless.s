# Makes the file f, writes a byte to the terminal, which waits for the file, and goes round for ever.
_start: li   t0, 0x66
        sw   t0, -4(sp)
        addi a0, sp, -4
        li   a1, 1
        li   a2, 2
        li   a7, 4
        ecall
        li   a0, 1
        addi a1, sp, -4
        li   a2, 1
        li   a7, 2
        ecall
round:  j    round
