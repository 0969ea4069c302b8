# Where a C program begins. All registers are 0 but the stack pointer, which stands at the end of four pages. It sets the global
# pointer, where the link script has one, and the thread pointer. It runs the constructors, calls main without arguments, and then
# exit with what that returned.
    .section .text.start, "ax"
    .globl _start
    .weak __global_pointer$
_start:
    .option push
    .option norelax
    la   gp, __global_pointer$
    .option pop
    la   tp, __tls_base
    la   s0, __preinit_array_start
    la   s1, __init_array_end
    j    2f
1:  lw   t0, 0(s0)
    addi s0, s0, 4
    jalr t0
2:  bltu s0, s1, 1b
    li   a0, 0
    li   a1, 0
    call main
    call exit
