# JAL, BRANCH, RVC_JUMP and RVC_BRANCH across the top of memory, from its last bytes to its first,
# each also as far as it goes. This assembler writes JAL and BRANCH by itself; it makes a long form
# of a short jump to another section or an external, so these are by .reloc.
        .macro  jump type, word, name
        .reloc  ., R_RISCV_\type, \name
        .2byte  \word
        .endm
        .globl  jump_end, short_end
        .text
f:      jal     ra, low                         # P 0xffffffffffffff80
        jal     zero, jal_end                   # 1,048,574
        beq     a0, a1, branch_end              # 4,094
        bne     a0, a1, low                     # P 0xffffffffffffff8c
        jump    RVC_JUMP, 0xa001, jump_end      # c.j, 2,046
        jump    RVC_JUMP, 0xa001, low           # c.j
        jump    RVC_BRANCH, 0xc101, short_end   # c.beqz, 254
        jump    RVC_BRANCH, 0xe081, low         # c.bnez
        jal     t0, first                       # to 0
        blt     a0, a1, branch_end              # 4,074
        .org    f + 0x70
        jal     ra, low                         # P 0xfffffffffffffff0, 32
        bgeu    a0, a1, low                     # P 0xfffffffffffffff4
        jump    RVC_JUMP, 0xbffd, low           # bits of the field are replaced
        jump    RVC_BRANCH, 0xdd7d, low         # the same
        jump    RVC_JUMP, 0xa001, low - 16      # P 0xfffffffffffffffc
        .bss
low:    .space  16                              # from 0x10 on
