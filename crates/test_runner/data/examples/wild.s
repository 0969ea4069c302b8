# Writes hi, and then stores a word where no page is.

_start: li   a0, 1
        la   a1, text
        li   a2, 3
        li   a7, 2            # write
        ecall
        sw   a0, 0(zero)
        .data
text:   .ascii "hi\n"
