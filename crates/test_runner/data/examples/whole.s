# A recovery of `in-place.s` and `by-rename.s`, for `bench crashes --recover`: there have to be no settings, or eight bytes of them.
# Where there is a part, it writes `part`, and ends with status 1.
#
# A call has its number in a7 and its arguments in a0, a1 and a2; its reply comes back in a0.

_start:
    la   a0, name
    li   a1, 8           # settings,
    li   a2, 0           # and mode 0: to read
    li   a7, 4           # open
    ecall
    bltz a0, end         # no settings

    la   a1, bytes
    li   a2, 9           # at most nine bytes
    li   a7, 3           # read
    ecall
    addi a0, a0, -8
    beqz a0, end         # whole ones

    li   a0, 1           # the terminal
    la   a1, text
    li   a2, 5
    li   a7, 2           # write
    ecall
    li   a0, 1           # the status
    li   a7, 1           # exit
    ecall

end:
    li   a0, 0
    li   a7, 1           # exit
    ecall

.data
name:   .ascii "settings"
text:   .ascii "part\n"
bytes:  .space 9
