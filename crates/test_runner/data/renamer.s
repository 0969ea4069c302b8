# Goes on making, writing, removing and renaming the files a, b, c and d, in rounds of 21 changes, which are alike whatever of these
# files is there before. A write is 1,024 bytes: the number of the change, from 1, in four bytes, and zeros. On the tape stands
# the number of the last change before, a multiple of 21, or nothing for none.
_start: addi s1,sp,-1024
        li a0,0
        mv a1,s1
        li a2,4
        li a7,3
        ecall
        lw s0,0(s1)
round:  la a0,a
        call make             # descriptor 2
        li a0,2
        call write
        la a0,b
        call make             # descriptor 3
        li a0,3
        call write
        la a0,c
        call make             # descriptor 4
        li a0,4
        call write
        la a0,a
        call remove
        li a0,2
        call refuse           # the old a
        li a0,3
        call write
        la a0,cd
        call rename           # no file has the new name
        li a0,4
        call write
        la a0,c
        call make             # descriptor 5
        li a0,5
        call write
        la a0,cb
        call rename           # b was made before it
        li a0,3
        call refuse           # the old b
        li a0,5
        call write
        la a0,db
        call rename           # b, which was c, was made after it
        li a0,5
        call refuse
        li a0,4
        call write
        la a0,a
        call make             # descriptor 6
        li a0,6
        call write
        la a0,c
        call make             # descriptor 7
        la a0,a
        call remove
        li a0,7
        call write
        li t0,7
        li t1,1
close:  mv a0,t0
        li a7,5
        ecall
        addi t0,t0,-1
        bne t0,t1,close
        j round
make:   addi s0,s0,1
        li a1,1
        li a2,2
        li a7,4
        ecall
        ret
write:  addi s0,s0,1
        sw s0,0(s1)
refuse: mv a1,s1              # the same write is refused where the file has no name, and changes nothing
        li a2,1024
        li a7,2
        ecall
        ret
remove: addi s0,s0,1
        li a1,1
        li a7,12
        ecall
        ret
rename: addi s0,s0,1
        li a1,1
        li a2,1
        li a7,13
        ecall
        ret
a:      .word 0x61
b:      .word 0x62
c:      .word 0x63
cd:     .word 0x6463
cb:     .word 0x6263
db:     .word 0x6264
