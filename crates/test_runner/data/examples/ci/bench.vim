" The words of bench's assembler, for Vim. tools/vim-syntax.py prints them from the assembler's tables.
if exists("b:current_syntax")
  finish
endif
syntax iskeyword @,48-57,_,.
syntax keyword benchInstruction add sub sll slt sltu xor srl sra or and mul mulh mulhsu mulhu div divu rem remu addi
syntax keyword benchInstruction slti sltiu xori ori andi slli srli srai lb lh lw lbu lhu jalr sb sh sw beq bne blt bge
syntax keyword benchInstruction bltu bgeu bgt ble bgtu bleu beqz bnez blez bgez bltz bgtz jal lui auipc li la mv not neg
syntax keyword benchInstruction seqz snez sltz sgtz j call jr nop ret fence fence.i ecall ebreak
syntax keyword benchDirective .text .data .word .byte .ascii .space
syntax keyword benchRegister zero ra sp gp tp t0 t1 t2 s0 s1 a0 a1 a2 a3 a4 a5 a6 a7 s2 s3 s4 s5 s6 s7 s8 s9 s10 s11 t3
syntax keyword benchRegister t4 t5 t6 fp x0 x1 x2 x3 x4 x5 x6 x7 x8 x9 x10 x11 x12 x13 x14 x15 x16 x17 x18 x19 x20 x21
syntax keyword benchRegister x22 x23 x24 x25 x26 x27 x28 x29 x30 x31
syntax region benchString oneline start=/"/ skip=/\\./ end=/"/
syntax match benchComment /#.*/
highlight default link benchInstruction Statement
highlight default link benchDirective PreProc
highlight default link benchRegister Identifier
highlight default link benchString String
highlight default link benchComment Comment
let b:current_syntax = "bench"
