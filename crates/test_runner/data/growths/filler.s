# Makes a pipe and a child, lets its own read end go, and goes on writing 1,024 bytes to the pipe, four times, and then one byte.
# The child reads ten bytes, writes 1,024, and lets the last read end go.
_start: addi a0,sp,-8
        li a7,6               # pipe
        ecall
        li a7,7               # fork
        ecall
        beqz a0,child
        li a0,2
        li a7,5               # close
        ecall
        li s0,4
next:   li a0,3
        la a1,zeros
        li a2,1024
        li a7,2               # write
        ecall
        addi s0,s0,-1
        bnez s0,next
        li a0,3
        li a2,1
        ecall
        ebreak
child:  li a0,2
        addi a1,sp,-32
        li a2,10
        li a7,3               # read
        ecall
        li a0,3
        la a1,zeros
        li a2,1024
        li a7,2               # write
        ecall
        li a0,2
        li a7,5               # close
        ecall
        ebreak
zeros:  .space 1024
