# Creates the file f, writes three bytes to it, then one to the terminal, and exits.
#
# A call has its number in a7 and its arguments in a0, a1 and a2; its reply comes back in a0.

_start:
    li   t0, 0x66        # the letter f
    sw   t0, -4(sp)      # below the stack pointer is room for it
    addi a0, sp, -4      # the place of the name,
    li   a1, 1           # its length,
    li   a2, 2           # and mode 2: make the file, or empty it
    li   a7, 4           # open
    ecall                # replies the least free descriptor

    li   t0, 0x41        # the letter A, and three zeros after it
    sw   t0, -4(sp)
    addi a1, sp, -4      # from here
    li   a2, 3           # three bytes
    li   a7, 2           # write, to the descriptor that is still in a0
    ecall                # replies how many bytes were written

    li   a0, 1           # descriptor 1 is the terminal
    li   a2, 1           # one byte, A, from the same place
    ecall

    li   a0, 0           # the status
    li   a7, 1           # exit
    ecall
