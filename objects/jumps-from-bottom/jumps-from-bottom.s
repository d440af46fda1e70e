# JAL, BRANCH, RVC_JUMP and RVC_BRANCH across the top of memory, from its first bytes to its last,
# each also as far as it goes. Most relocations are by .reloc, since the assembler makes a long form
# of a branch or a short jump to another section or an external.
        .macro  branch word, name
        .reloc  ., R_RISCV_BRANCH, \name
        .4byte  \word
        .endm
        .macro  jump type, word, name
        .reloc  ., R_RISCV_\type, \name
        .2byte  \word
        .endm
        .text
f:      jal     ra, high                        # P 0
        branch  0x00000063, last                # P 4, -8
        jal     zero, jal_end                   # -1,048,576
        branch  0x00b50063, branch_end          # beq, -4,096
        jump    RVC_JUMP, 0xa001, jump_end      # c.j, -2,048
        jump    RVC_JUMP, 0x2001, high          # c.jal
        jump    RVC_BRANCH, 0xc101, short_end   # c.beqz, -256
        jump    RVC_BRANCH, 0xe081, high        # c.bnez
        jal     t0, f - 2                       # P 0x18, -26
        branch  0x00b54063, high - 0x7f0        # blt
        branch  0xfeb50fe3, high + 2            # bits of the field are replaced
        jump    RVC_JUMP, 0xbffd, high          # bits of the field are replaced
        jump    RVC_BRANCH, 0xdd7d, high        # the same
        jump    RVC_JUMP, 0xa001, last          # P 0x28
        jump    RVC_BRANCH, 0xe081, last + 2    # P 0x2a
        .bss
high:   .space  16                              # from 0xffffff80 on
