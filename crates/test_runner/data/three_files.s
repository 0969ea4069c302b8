# Makes the files a, b and c, and goes on writing, in rounds: 1,024 bytes to each of two blocks of a, from 500 on, and to each
# of six blocks of c, from its start. A write begins with its number, in four bytes; after it stands the file's letter again
# and again.
_start: addi s1,sp,-2048      # what goes to a
        addi s2,sp,-1024      # what goes to c
        li t1,0x61616161
        li t2,0x63636363
        mv t0,s1
fill:   sw t1,0(t0)
        sw t2,1024(t0)
        addi t0,t0,4
        bltu t0,s2,fill
        la a0,a
        li a1,1
        li a2,2
        li a7,4
        ecall
        la a0,b
        ecall
        la a0,c
        ecall
        li s0,0
round:  li s3,2               # the descriptor of a
        mv s4,s1
        li a1,500
        li s5,2
        call write
        li s3,4               # the descriptor of c
        mv s4,s2
        li a1,0
        li s5,6
        call write
        j round
write:  mv a0,s3              # to descriptor s3, from offset a1 on, what stands at s4, s5 times
        li a7,10
        ecall
next:   addi s0,s0,1
        sw s0,0(s4)
        mv a0,s3
        mv a1,s4
        li a2,1024
        li a7,2
        ecall
        addi s5,s5,-1
        bnez s5,next
        ret
a:      .word 0x61
b:      .word 0x62
c:      .word 0x63
