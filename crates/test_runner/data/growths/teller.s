# Makes a child, and writes N to its terminal.
_start: li a7,7               # fork
        ecall
        li a0,1               # the terminal
        la a1,byte
        li a2,1
        li a7,2               # write
        ecall
        ebreak
byte:   .word 0x4e
