# Opens the file f, reads three bytes of it, and writes C to its terminal.
_start: la a0,name
        li a1,1
        li a2,0
        li a7,4               # open
        ecall
        li a0,2
        addi a1,sp,-8
        li a2,3
        li a7,3               # read
        ecall
        li a0,1               # the terminal
        la a1,byte
        li a2,1
        li a7,2               # write
        ecall
name:   .word 0x66
byte:   .word 0x43
