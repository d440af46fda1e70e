# BRANCH at both ends of its range, between two sections on each side of 2^32; the relocations by
# .reloc, since the assembler turns a branch to another section into a jump.
        .macro  branch word, name
        .reloc  ., R_RISCV_BRANCH, \name
        .4byte  \word
        .endm
        .section .text.low, "ax"
low:    branch  0x00b50063, high                # beq, 4,094
        branch  0x00b51063, high - 2
        ret
        .section .text.high, "ax"
        .byte   0x13, 0x00
high:   branch  0x00b54063, low - 2             # blt, at low + 4,094: -4,096
        branch  0x00b55063, low + 2             # bge, -4,096
        branch  0x00b56063, high - 0x800        # bltu
        branch  0x00b57063, high + 0x800        # bgeu
        branch  0xfeb50fe3, high + 0x10         # bits of the field are replaced
        ret
