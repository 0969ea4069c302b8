# Makes a file with a program, executes it in a child process, and waits for it, as an init does. The program in the file
# changes its own code while it runs: it prints 0123456789.
#
# A call has its number in a7 and its arguments in a0, a1 and a2; its reply comes back in a0.

_start:
    la   a0, name
    li   a1, 5
    li   a2, 2           # make the file, or empty it
    li   a7, 4           # open
    ecall
    mv   s0, a0          # the descriptor

    la   a1, file
    li   a2, 156         # the whole file: 84 bytes of headers, 72 of code
    li   a7, 2           # write
    ecall

    mv   a0, s0
    li   a7, 5           # close
    ecall

    li   a7, 7           # fork: 0 in the child, the child's number in the parent
    ecall
    beqz a0, child

    li   a0, 0           # its status is not asked for
    li   a7, 8           # wait
    ecall

    li   a0, 1           # the terminal
    la   a1, newline
    li   a2, 1
    li   a7, 2           # write
    ecall
    li   a0, 0
    li   a7, 1           # exit
    ecall

child:
    la   a0, name
    li   a1, 5
    li   a7, 14          # exec: what comes back is an error
    ecall
    li   a0, 1
    li   a7, 1           # exit
    ecall

.data
name:    .ascii "digit"
newline: .ascii "\n"
         .space 2

# The file: an image of one segment, which may be read, written and executed. The segment begins right after the headers, so
# its address has the same place in a page: 84 bytes from the start.
file:
    .word 0x464C457F, 0x00010101, 0, 0          # an ELF file, 32 bits, little-endian
    .word 0x00F30002, 1                         # an executable file for RISC-V
    .word 0x00010054, 52, 0, 0                  # it begins at 0x00010054; its program headers stand at 52
    .word 0x00200034, 1, 0                      # one program header of 32 bytes
    .word 1, 84, 0x00010054, 0x00010054         # loaded, from byte 84 of the file, at 0x00010054
    .word 72, 72, 7, 4096                       # 72 bytes; read, write and execute; pages of 4,096 bytes

    .word 0x00A00413    #        li   s0,10         ten rounds
    .word 0x03000293    # again: li   t0,0x30       the digit 0; this is the word that changes
    .word 0xFE512E23    #        sw   t0,-4(sp)
    .word 0x00100513    #        li   a0,1          to the terminal
    .word 0xFFC10593    #        addi a1,sp,-4      from here
    .word 0x00100613    #        li   a2,1          one byte
    .word 0x00200893    #        li   a7,2
    .word 0x00000073    #        ecall              write
    .word 0x00000317    #        auipc t1,0         the address of this instruction
    .word 0xFE432383    #        lw   t2,-28(t1)    the word at `again`
    .word 0x00100E37    #        lui  t3,0x100      1 in its immediate, the upper twelve bits
    .word 0x01C383B3    #        add  t2,t2,t3
    .word 0xFE732223    #        sw   t2,-28(t1)    the next round fetches this word
    .word 0xFFF40413    #        addi s0,s0,-1
    .word 0xFC0416E3    #        bnez s0,again
    .word 0x00000513    #        li   a0,0
    .word 0x00100893    #        li   a7,1
    .word 0x00000073    #        ecall              exit
