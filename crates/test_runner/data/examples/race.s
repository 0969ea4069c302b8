# A lost update. Parent and child each read the digit in the file n, add one to it and write it back; then the parent writes it to the
# terminal. It is 2, or 1 where both read it before either wrote it.

_start: li   a2, 2            # made, and written
        call open
        la   a1, digit
        call put
        li   a7, 7            # fork
        ecall
        mv   s1, a0
        li   a2, 0
        call open
        call get
        la   t1, digit
        lbu  t0, 0(t1)
        addi t0, t0, 1
        sb   t0, 0(t1)
        li   a2, 1
        call open
        la   a1, digit
        call put
        beqz s1, exit         # the child ends here
        li   a0, 0
        li   a7, 8            # wait
        ecall
        li   a2, 0
        call open
        call get
        li   s0, 1
        la   a1, digit
        li   a2, 2
        call write
exit:   li   a0, 0
        li   a7, 1
        ecall

# Opens the file n by the mode in a2; its descriptor is s0.
open:   la   a0, name
        li   a1, 1
        li   a7, 4
        ecall
        mv   s0, a0
        ret

# Reads the digit from s0, and closes it.
get:    mv   a0, s0
        la   a1, digit
        li   a2, 1
        li   a7, 3
        ecall
        j    close

# Writes the byte at a1 to s0, and closes it.
put:    li   a2, 1
write:  mv   a0, s0
        li   a7, 2
        ecall
close:  mv   a0, s0
        li   a7, 5
        ecall
        ret
        .data
name:   .ascii "n"
digit:  .ascii "0\n"
