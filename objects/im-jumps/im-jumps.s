# Without compressed instructions: JAL and BRANCH as far as they go in steps of four bytes, and
# between labels of relaxable code. One section is at 2 modulo 4.
        .macro  branch word, name
        .reloc  ., R_RISCV_BRANCH, \name
        .4byte  \word
        .endm
        .macro  jump word, name
        .reloc  ., R_RISCV_JAL, \name
        .4byte  \word
        .endm
        .text
f:      jal     ra, jal_end             # P 0x20000804, 1,048,572
        jal     zero, jal_back          # P 0x20000808, -1,048,576
        branch  0x00b50063, branch_end  # beq, 4,092
        branch  0x00b51063, branch_back # bne, -4,096
        beq     a0, a1, 1f
        blt     a0, a1, f
        bgeu    a0, a1, 1f
        j       f
        jal     t0, 1f
        jal     ra, other + 4
1:      bnez    a0, 1b
        ret
        .section .text.other, "ax"
other:  nop
        j       f
        jal     ra, f + 8
        ret
        .section .text.beside, "ax"
beside: branch  0x00b54063, beside + 8  # blt
        jump    0x000000ef, beside      # jal ra
        branch  0xfeb50fe3, beside      # beq; bits of the field are replaced
        jump    0xfffff06f, beside_end  # j; bits of the field are replaced
