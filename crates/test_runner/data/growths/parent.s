# Makes a child, which makes the file g and ends. The parent writes P to its terminal, waits for the child, and writes D.
_start: li a7,7               # fork
        ecall
        beqz a0,child
        li a0,1               # the terminal
        la a1,first
        li a2,1
        li a7,2               # write
        ecall
        li a0,0
        li a7,8               # wait
        ecall
        li a0,1
        la a1,second
        li a2,1
        li a7,2               # write
        ecall
child:  la a0,name
        li a1,1
        li a2,2
        li a7,4               # open
        ecall
        li a0,0
        li a7,1               # exit
        ecall
name:   .word 0x67
first:  .word 0x50
second: .word 0x44
