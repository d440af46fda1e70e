# JAL, BRANCH, RVC_JUMP and RVC_BRANCH across the top of memory, from its first bytes to its last,
# each also as far as it goes. This assembler writes JAL and BRANCH by itself; it makes a long form
# of a short jump to another section or an external, so these are by .reloc.
        .macro  jump type, word, name
        .reloc  ., R_RISCV_\type, \name
        .2byte  \word
        .endm
        .globl  jump_end, short_end
        .text
f:      jal     ra, high                        # P 0
        beq     zero, zero, last                # P 4, -8
        jal     zero, jal_end                   # -1,048,576
        beq     a0, a1, branch_end              # -4,096
        jump    RVC_JUMP, 0xa001, jump_end      # c.j, -2,048
        jump    RVC_JUMP, 0x2001, high          # c.jal
        jump    RVC_BRANCH, 0xc101, short_end   # c.beqz, -256
        jump    RVC_BRANCH, 0xe081, high        # c.bnez
        jal     t0, last                        # P 0x18, -28
        blt     a0, a1, jump_end                # P 0x1c
        bgeu    a0, a1, high                    # P 0x20
        jump    RVC_JUMP, 0xbffd, high          # bits of the field are replaced
        jump    RVC_BRANCH, 0xdd7d, high        # the same
        jump    RVC_JUMP, 0xa001, last          # P 0x28
        jump    RVC_BRANCH, 0xe081, last + 2    # P 0x2a
        .bss
high:   .space  16                              # from 0xffffff80 on
