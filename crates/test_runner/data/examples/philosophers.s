# Three philosophers sit round a table, with a fork between each two. A fork is a pipe that holds a byte: who reads it has the fork, and
# who writes it puts the fork back. Each takes the fork on the left, then the one on the right, eats, which writes a letter, and puts
# both back.
_start:
    la   s0, forks
    li   s1, 3
make:
    mv   a0, s0
    li   a7, 6           # pipe
    ecall
    lw   a0, 4(s0)
    la   a1, letters
    li   a2, 1
    li   a7, 2           # write
    ecall
    addi s0, s0, 8
    addi s1, s1, -1
    bnez s1, make
    la   s2, letters
    li   a7, 7           # fork
    ecall
    beqz a0, second
    li   a7, 7           # fork
    ecall
    beqz a0, third
    la   s0, forks
    addi s1, s0, 8
    j    eat
second:
    la   s0, forks
    addi s0, s0, 8
    addi s1, s0, 8
    addi s2, s2, 1
    j    eat
third:
    la   s1, forks
    addi s0, s1, 16
    addi s2, s2, 2

# s0 and s1 are where the descriptors of the forks stand, in the order in which they are taken.
eat:
    lw   a0, 0(s0)
    la   a1, byte
    li   a2, 1
    li   a7, 3           # read
    ecall
    lw   a0, 0(s1)
    la   a1, byte
    li   a2, 1
    li   a7, 3           # read
    ecall
    li   a0, 1           # the terminal
    mv   a1, s2
    li   a2, 1
    li   a7, 2           # write
    ecall
    lw   a0, 4(s1)
    la   a1, byte
    li   a2, 1
    li   a7, 2           # write
    ecall
    lw   a0, 4(s0)
    la   a1, byte
    li   a2, 1
    li   a7, 2           # write
    ecall
    li   a0, 0
    li   a7, 1           # exit
    ecall

    .data
forks:   .space 24
letters: .ascii "abc"
byte:    .space 1
