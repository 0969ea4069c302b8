# A deadlock: the child reads from a pipe whose end to write it has itself, and the parent waits for the child.

_start: la   a0, ends
        li   a7, 6            # pipe
        ecall
        li   a7, 7            # fork
        ecall
        beqz a0, child
        li   a0, 0
        li   a7, 8            # wait
        ecall
child:  la   t0, ends
        lw   a0, 0(t0)
        la   a1, byte
        li   a2, 1
        li   a7, 3            # read
        ecall
        .data
ends:   .word 0, 0
byte:   .word 0
