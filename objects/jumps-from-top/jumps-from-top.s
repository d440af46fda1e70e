# JAL, BRANCH, RVC_JUMP and RVC_BRANCH across the top of memory, from its last bytes to its first,
# each also as far as it goes. Most relocations are by .reloc, since the assembler makes a long form
# of a branch or a short jump to another section or an external.
        .macro  branch word, name
        .reloc  ., R_RISCV_BRANCH, \name
        .4byte  \word
        .endm
        .macro  jump type, word, name
        .reloc  ., R_RISCV_\type, \name
        .2byte  \word
        .endm
        .text
f:      jal     ra, low                         # P 0xffffff80
        jal     zero, jal_end                   # 1,048,574
        branch  0x00b50063, branch_end          # beq, 4,094
        branch  0x00b51063, low                 # bne
        jump    RVC_JUMP, 0xa001, jump_end      # c.j, 2,046
        jump    RVC_JUMP, 0x2001, low           # c.jal
        jump    RVC_BRANCH, 0xc101, short_end   # c.beqz, 254
        jump    RVC_BRANCH, 0xe081, low         # c.bnez
        jal     t0, f + 0x80                    # to 0
        branch  0x00b54063, low + 0x7f0         # blt
        .org    f + 0x70
        jal     ra, low                         # P 0xfffffff0, 32
        branch  0xfeb50fe3, low - 2             # bits of the field are replaced
        jump    RVC_JUMP, 0xbffd, low           # bits of the field are replaced
        jump    RVC_BRANCH, 0xdd7d, low         # the same
        jump    RVC_JUMP, 0xa001, low - 16      # P 0xfffffffc
        .bss
low:    .space  16                              # from 0x10 on
