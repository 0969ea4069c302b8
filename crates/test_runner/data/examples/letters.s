# Reads a letter of its tape, makes a child, and writes the letter. The child writes the next letter, and ends with it as its status.

.data
letter:
    .byte 0

.text
_start:
    li   a0, 0           # descriptor 0 is the tape
    la   a1, letter
    li   a2, 1
    li   a7, 3           # read
    ecall
    li   a7, 7           # fork
    ecall
    beqz a0, child
    call show
    li   a0, 0
    li   a7, 8           # wait for the child
    ecall
    li   a0, 0
    li   a7, 1           # exit
    ecall
child:
    la   t0, letter
    lbu  t1, 0(t0)
    addi t1, t1, 1
    sb   t1, 0(t0)
    call show
    la   t0, letter
    lbu  a0, 0(t0)
    li   a7, 1           # exit
    ecall

# Writes the letter to the terminal.
show:
    li   a0, 1           # descriptor 1 is the terminal
    la   a1, letter
    li   a2, 1
    li   a7, 2           # write
    ecall
    ret
