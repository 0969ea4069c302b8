# Adds the numbers of a table, and writes the sum in decimal digits and a line feed to the terminal.

.data
table:
    .word 3, 1, 4, 1, 5, 9, 2, 6
digits:                  # the label after the table tells where the table ends
    .space 10            # room for ten digits, the most that a number of 32 bits has
newline:
    .byte 10

.text
_start:
    la   t0, table       # t0 goes over the table
    la   t1, digits
    li   t2, 0           # t2 is the sum so far
add_next:
    lw   t3, 0(t0)
    add  t2, t2, t3
    addi t0, t0, 4
    bltu t0, t1, add_next

    mv   a0, t2
    call print
    li   a0, 0           # the status
    li   a7, 1           # exit
    ecall

# Writes the number in a0, and a line feed, to the terminal.
print:
    la   a1, newline     # the digits are made from the last to the first; a1 is the place of the first
    li   t1, 10
make_digit:
    remu t3, a0, t1      # the last digit of what is left
    addi t3, t3, 0x30    # as a character
    addi a1, a1, -1
    sb   t3, 0(a1)
    divu a0, a0, t1
    bnez a0, make_digit

    la   a2, newline
    addi a2, a2, 1
    sub  a2, a2, a1      # how many bytes there are, the line feed among them
    li   a0, 1           # descriptor 1 is the terminal
    li   a7, 2           # write
    ecall
    ret
