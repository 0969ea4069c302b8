# Makes the file f, writes 41 00 00 to it and A to its terminal, and ends.
_start: li t0, 0x66      # the name, f
    sw t0, -4(sp)
    addi a0, sp, -4
    li a1, 1
    li a2, 2                 # the file is made
    li a7, 4                 # open
    ecall
    li t0, 0x41              # A
    sw t0, -4(sp)
    addi a1, sp, -4
    li a2, 3
    li a7, 2                 # write
    ecall
    li a0, 1                 # the terminal
    li a2, 1
    ecall
    li a0, 0
    li a7, 1                 # exit
    ecall
