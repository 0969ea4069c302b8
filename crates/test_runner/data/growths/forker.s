# Makes the file f, and a child.
_start: la a0,name
        li a1,1
        li a2,2
        li a7,4               # open
        ecall
        li a7,7               # fork
        ecall
        ebreak
name:   .word 0x66
