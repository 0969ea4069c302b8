# Writes the primes below 60 to the terminal, by a row of processes with a pipe between each two. The first process sends the
# numbers from 2 on. Each other one takes its first number, which is a prime, writes it, makes the next process, and passes on to
# it what the prime does not divide.

.text
_start:
    addi sp, sp, -16     # 0(sp) and 4(sp): the ends of a pipe; 8(sp): a number on its way
    call connect
    beqz a0, filter
    mv   a0, s0          # the child reads
    call close
    li   s2, 2
send_next:
    sw   s2, 8(sp)
    call send
    addi s2, s2, 1
    li   t0, 60
    blt  s2, t0, send_next
    j    finish

# A child: s0 and s1 are the ends of the pipe that leads to it.
filter:
    mv   a0, s1          # the parent writes
    call close
    mv   s3, s0
    call take
    beqz a0, exit        # no number came: the row ends here
    lw   s2, 8(sp)
    mv   a0, s2
    call print
    call connect
    beqz a0, filter_next
    mv   a0, s0          # the child reads
    call close
pass_on:
    call take
    beqz a0, finish
    lw   t0, 8(sp)
    remu t1, t0, s2
    beqz t1, pass_on     # the prime divides it
    call send
    j    pass_on
filter_next:
    mv   a0, s3          # what leads to the parent is the parent's
    call close
    j    filter

finish:                  # no more numbers: so says the closed end
    mv   a0, s1
    call close
    li   a0, 0
    li   a7, 8           # wait for the child
    ecall
exit:
    li   a0, 0
    li   a7, 1
    ecall

# Makes a pipe, with its ends in s0 (to read) and s1 (to write), and a child, in which a0 is 0.
connect:
    mv   a0, sp
    li   a7, 6           # pipe
    ecall
    lw   s0, 0(sp)
    lw   s1, 4(sp)
    li   a7, 7           # fork
    ecall
    ret

# Writes the number at 8(sp) to s1.
send:
    mv   a0, s1
    addi a1, sp, 8
    li   a2, 4
    li   a7, 2           # write
    ecall
    ret

# Reads a number from s3 to 8(sp); a0 is 0 where no more come.
take:
    mv   a0, s3
    addi a1, sp, 8
    li   a2, 4
    li   a7, 3           # read
    ecall
    ret

# Closes descriptor a0.
close:
    li   a7, 5
    ecall
    ret

# Writes the number in a0, below 100, and a line feed, to the terminal.
print:
    addi a1, sp, 14      # 12(sp) to 14(sp): the digits and the line feed
    li   t0, 10
    sb   t0, 0(a1)
make_digit:
    remu t1, a0, t0
    addi t1, t1, 0x30    # the last digit of what is left, as a character
    addi a1, a1, -1
    sb   t1, 0(a1)
    divu a0, a0, t0
    bnez a0, make_digit
    addi a2, sp, 15
    sub  a2, a2, a1
    li   a0, 1           # descriptor 1 is the terminal
    li   a7, 2           # write
    ecall
    ret
