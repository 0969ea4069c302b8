# Makes a row of eight stars, and writes it to the terminal. It has a fault on purpose: docs/DEBUGGER.md finds it by going back.

.data
stars:
    .space 8
length:
    .word 8

.text
_start:
    la   t0, stars       # where the next star goes
    la   t1, length      # where the row ends
    li   t2, 0x2a
next_star:
    sb   t2, 0(t0)
    addi t0, t0, 1
    bleu t0, t1, next_star

    la   a1, stars
    la   a2, length
    lw   a2, 0(a2)
    li   a0, 1           # descriptor 1 is the terminal
    li   a7, 2           # write
    ecall
    li   a0, 0
    li   a7, 1           # exit
    ecall
