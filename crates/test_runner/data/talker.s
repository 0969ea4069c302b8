# As writer.s: it goes on writing to the file f, 1,024 bytes to each of its sixteen blocks in turn, again and again, and each
# write begins with its number. Before each sixteen it also writes a dot to its terminal.
_start: addi s1,sp,-1024
        li a0,0
        mv a1,s1
        li a2,4
        li a7,3
        ecall
        lw s0,0(s1)
        la a0,name
        li a1,1
        li a2,1
        li a7,4
        ecall
        bgez a0,again
        la a0,name
        li a2,2
        ecall
again:  li a0,1
        la a1,dot
        li a2,1
        li a7,2
        ecall
        li a0,2
        li a1,0
        li a7,10
        ecall
        li s2,16
next:   addi s0,s0,1
        sw s0,0(s1)
        li a0,2
        mv a1,s1
        li a2,1024
        li a7,2
        ecall
        addi s2,s2,-1
        bnez s2,next
        j again
name:   .word 0x66
dot:    .word 0x2e
