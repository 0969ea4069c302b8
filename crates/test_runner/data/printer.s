# Writes B to its terminal, and ends.
_start: li t0,0x42
        sw t0,-4(sp)
        li a0,1               # the terminal
        addi a1,sp,-4
        li a2,1
        li a7,2               # write
        ecall
        li a0,0
        li a7,1               # exit
        ecall
