# The images that the shell puts into files, as `build.sh` made them.
    .section .rodata
    .globl upper, upper_end, reverse, reverse_end
upper:
    .incbin "upper.image"
upper_end:
reverse:
    .incbin "reverse.image"
reverse_end:
