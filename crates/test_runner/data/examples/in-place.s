# Saves its settings twice, each time in the same file. A crash between the call that empties the file and the one that writes it
# leaves no settings. `by-rename.s` does it right.
#
# A call has its number in a7 and its arguments in a0, a1 and a2; its reply comes back in a0.

_start:
    la   s1, first
    call save
    la   s1, second
    call save
    li   a0, 0           # the status
    li   a7, 1           # exit
    ecall

# Saves the eight bytes at s1.
save:
    la   a0, name
    li   a1, 8           # settings,
    li   a2, 2           # and mode 2: make the file, or empty it
    li   a7, 4           # open
    ecall
    mv   s0, a0          # the descriptor

    mv   a1, s1
    li   a2, 8
    li   a7, 2           # write
    ecall

    mv   a0, s0
    li   a7, 5           # close
    ecall
    ret

.data
name:   .ascii "settings"
first:  .ascii "volume=3"
second: .ascii "volume=7"
