# A child saves its result in a file. The parent writes what it finds there, without waiting for the child.
_start:
    li   a7, 7           # fork
    ecall
    beqz a0, child
    la   a0, name
    li   a1, 6
    li   a2, 0           # to read
    li   a7, 4           # open
    ecall
    bltz a0, nothing
    la   a1, text
    li   a2, 8
    li   a7, 3           # read
    ecall
    mv   a2, a0
    la   a1, text
    j    say
nothing:
    la   a1, dash
    li   a2, 1
say:
    li   a0, 1           # the terminal
    li   a7, 2           # write
    ecall
    li   a0, 0
    li   a7, 1           # exit
    ecall

child:
    la   a0, name
    li   a1, 6
    li   a2, 2           # the file is made
    li   a7, 4           # open
    ecall
    la   a1, result
    li   a2, 2
    li   a7, 2           # write
    ecall
    li   a0, 0
    li   a7, 1           # exit
    ecall

    .data
name:   .ascii "result"
result: .ascii "42"
dash:   .ascii "-"
text:   .space 8
