# Counts a thousand on in a file, from the number that stands there, and writes each number to the terminal once it is in the file.
# With `bench run --disk FILE --durable` the file in FILE has each number that the terminal shows, whatever happens to the host.
#
# A call has its number in a7 and its arguments in a0, a1 and a2; its reply comes back in a0.

_start:
    li   a2, 0           # mode 0: read
    call open
    bltz a0, make        # there is no file yet
    mv   s0, a0
    li   a7, 3           # read
    call line_call
    mv   a0, s0
    li   a7, 5           # close
    ecall
    li   a2, 1           # mode 1: write, from the file's start
    j    begin
make:
    li   a2, 2           # mode 2: make the file
begin:
    call open
    mv   s0, a0
    li   s1, 1000
next:
    call count
    mv   a0, s0
    li   a1, 0           # to its start
    li   a7, 10          # seek
    ecall
    mv   a0, s0
    li   a7, 2           # write
    call line_call
    li   a0, 1           # the terminal
    li   a7, 2           # write
    call line_call
    addi s1, s1, -1
    bnez s1, next
    li   a0, 0           # the status
    li   a7, 1           # exit
    ecall

# Opens the file by the mode in a2.
open:
    la   a0, name
    li   a1, 5
    li   a7, 4           # open
    ecall
    ret

# The call of number a7 of the descriptor a0, on the seven bytes of the line.
line_call:
    la   a1, line
    li   a2, 7
    ecall
    ret

# Adds one to the number on the line.
count:
    la   t0, line
    addi t1, t0, 5       # its last digit
    li   t2, 57          # a 9
carry:
    lbu  t3, 0(t1)
    addi t3, t3, 1
    sb   t3, 0(t1)
    ble  t3, t2, counted
    li   t3, 48          # a 0
    sb   t3, 0(t1)
    addi t1, t1, -1
    bgeu t1, t0, carry
counted:
    ret

.data
name:   .ascii "count"
line:   .ascii "000000\n"
