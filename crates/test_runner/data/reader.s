# Reads its tape by two bytes at a time, writes each part to its terminal, and ends with its number once none are left.
_start: li a0,0               # the tape
        addi a1,sp,-4
        li a2,2
        li a7,3               # read
        ecall
        beqz a0,end
        mv a2,a0
        li a0,1               # the terminal
        li a7,2               # write
        ecall
        j _start
end:    li a7,9               # getpid
        ecall
        li a7,1               # exit
        ecall
