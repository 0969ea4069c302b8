# Makes the files f and g, takes the name of f away, writes 41 to g, and A to its terminal, and ends.
_start: la a0,f
        li a1,1
        li a2,2
        li a7,4               # open: it is made
        ecall
        la a0,g
        ecall
        la a0,f
        li a7,12              # unlink
        ecall
        li a0,3
        la a1,text
        li a2,1
        li a7,2               # write
        ecall
        li a0,1               # the terminal
        ecall
        li a0,0
        li a7,1               # exit
        ecall
f:      .word 0x66
g:      .word 0x67
text:   .word 0x41
