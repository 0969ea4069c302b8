# Two children each add one to a counter in a file. Their parent waits for both, and writes the counter.
_start:
    la   a0, name
    li   a1, 1
    li   a2, 2           # the file is made
    li   a7, 4           # open
    ecall
    la   a1, count
    li   a2, 1
    li   a7, 2           # write
    ecall
    li   a7, 7           # fork
    ecall
    beqz a0, child
    li   a7, 7           # fork
    ecall
    beqz a0, child
    li   a0, 0
    li   a7, 8           # wait
    ecall
    li   a0, 0
    li   a7, 8           # wait
    ecall
    call load
    li   a0, 1           # the terminal
    j    store

child:
    call load
    la   t0, count
    lb   t1, 0(t0)
    addi t1, t1, 1
    sb   t1, 0(t0)
    la   a0, name
    li   a1, 1
    li   a2, 1           # to write
    li   a7, 4           # open
    ecall
store:
    la   a1, count
    li   a2, 1
    li   a7, 2           # write
    ecall
    li   a0, 0
    li   a7, 1           # exit
    ecall

# Reads the counter.
load:
    la   a0, name
    li   a1, 1
    li   a2, 0           # to read
    li   a7, 4           # open
    ecall
    la   a1, count
    li   a2, 1
    li   a7, 3           # read
    ecall
    ret

    .data
name:   .ascii "c"
count:  .ascii "0"
