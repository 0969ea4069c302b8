# Makes a pipe and a child. The parent makes the file f and writes a byte to the pipe; the child reads that byte, and writes C.
_start: addi a0,sp,-8
        li a7,6               # pipe
        ecall
        li a7,7               # fork
        ecall
        beqz a0,child
        la a0,name
        li a1,1
        li a2,2
        li a7,4               # open
        ecall
        li a0,3
        la a1,byte
        li a2,1
        li a7,2               # write
        ecall
        li a7,1               # exit
        ecall
child:  li a0,2
        addi a1,sp,-16
        li a2,1
        li a7,3               # read
        ecall
        li a0,1               # the terminal
        la a1,byte
        li a2,1
        li a7,2               # write
        ecall
name:   .word 0x66
byte:   .word 0x43
