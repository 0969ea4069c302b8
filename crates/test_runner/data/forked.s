# Forks. The parent counts to 2,500 before it writes the line P, the child writes the line C at once: so by one worker the order of
# the two tells how long a time slice is.
_start: li a7,7               # fork
        ecall
        li t0,2627            # C and a line feed
        beq a0,zero,write
        li t0,2500
count:  addi t0,t0,-1
        bne t0,zero,count
        li t0,2640            # P and a line feed
write:  sw t0,-4(sp)
        li a0,1
        addi a1,sp,-4
        li a2,2
        li a7,2               # write
        ecall
        li a0,0
        li a7,1               # exit
        ecall
