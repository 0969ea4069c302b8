# Makes a pipe and a child. The child lets its write end go, and reads; the parent ends, and so lets the last write end go.
_start: addi a0,sp,-8
        li a7,6               # pipe
        ecall
        li a7,7               # fork
        ecall
        beqz a0,child
        li a0,0
        li a7,1               # exit
        ecall
child:  li a0,3
        li a7,5               # close
        ecall
        li a0,2
        addi a1,sp,-32
        li a2,10
        li a7,3               # read
        ecall
        ebreak
