# Each instruction that the assembler makes of others, once, and what it makes of it. It runs from the first line to the
# last, and ends with status 0; it has no output.

.data
cell:
    .word 7

.text
_start:
    nop                  # addi zero,zero,0
    li   t0, 5           # addi t0,zero,5
    li   t1, 0x12345FFF  # lui t1,0x12346 and addi t1,t1,-1
    la   t2, cell        # auipc t2,.. and addi t2,t2,..; always two instructions
    mv   t3, t0          # addi t3,t0,0
    not  t4, t0          # xori t4,t0,-1
    neg  t5, t0          # sub t5,zero,t0

    seqz t6, zero        # sltiu t6,zero,1; 1 where the register is 0
    snez t6, t0          # sltu t6,zero,t0; 1 where it is not
    sltz t6, t5          # slt t6,t5,zero; 1 where it is negative
    sgtz t6, t0          # slt t6,zero,t0; 1 where it is above 0

    beqz zero, on1       # beq zero,zero,on1
on1:
    bnez t0, on2         # bne t0,zero,on2
on2:
    blez t5, on3         # bge zero,t5,on3
on3:
    bgez t0, on4         # bge t0,zero,on4
on4:
    bltz t5, on5         # blt t5,zero,on5
on5:
    bgtz t0, on6         # blt zero,t0,on6
on6:
    bgt  t0, t5, on7     # blt t5,t0,on7
on7:
    ble  t5, t0, on8     # bge t0,t5,on8
on8:
    bgtu t5, t0, on9     # bltu t0,t5,on9; -5 is great where it has no sign
on9:
    bleu t0, t5, on10    # bgeu t5,t0,on10
on10:
    j    on11            # jal zero,on11
on11:
    jal  on12            # jal ra,on12
on12:
    call leaf            # jal ra,leaf
    la   t2, leaf
    jalr t2              # jalr ra,0(t2)
    la   t2, end
    jr   t2              # jalr zero,0(t2)
leaf:
    ret                  # jalr zero,0(ra)
end:
    li   a0, 0
    li   a7, 1           # exit
    ecall
