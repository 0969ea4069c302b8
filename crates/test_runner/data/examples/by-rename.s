# Saves its settings twice, each time in a new file that it then renames over the old one. A crash leaves the old settings or the
# new ones. `in-place.s` does without the new file.
#
# A call has its number in a7 and its arguments in a0, a1 and a2; its reply comes back in a0.

_start:
    la   s1, first
    call save
    la   s1, second
    call save
    li   a0, 0           # the status
    li   a7, 1           # exit
    ecall

# Saves the eight bytes at s1.
save:
    la   a0, names
    li   a1, 12          # settings.new,
    li   a2, 2           # and mode 2: make the file, or empty it
    li   a7, 4           # open
    ecall
    mv   s0, a0          # the descriptor

    mv   a1, s1
    li   a2, 8
    li   a7, 2           # write
    ecall

    mv   a0, s0
    li   a7, 5           # close
    ecall

    la   a0, names       # from the first twelve bytes here
    li   a1, 12
    li   a2, 8           # to the eight after them
    li   a7, 13          # rename
    ecall
    ret

.data
names:  .ascii "settings.newsettings"
first:  .ascii "volume=3"
second: .ascii "volume=7"
