# Every instruction form that a low half may sit in: opcodes 0x03, 0x07, 0x13, 0x67, 0x23, 0x27.
        .text
        lui     a0, %hi(value)
        lb      a1, %lo(value)(a0)
        lh      a1, %lo(value + 2)(a0)
        lw      a1, %lo(value + 4)(a0)
        lbu     a1, %lo(value + 1)(a0)
        lhu     a1, %lo(value + 6)(a0)
        flw     fa0, %lo(value + 8)(a0)
        fld     fa1, %lo(value + 16)(a0)
        addi    a2, a0, %lo(value - 4)
        jalr    ra, %lo(value)(a0)
        jalr    zero, %lo(value + 2)(a0)
        sb      a1, %lo(value)(a0)
        sh      a1, %lo(value + 2)(a0)
        sw      a1, %lo(value + 4)(a0)
        fsw     fa0, %lo(value + 8)(a0)
        fsd     fa1, %lo(value + 16)(a0)
1:      auipc   a0, %pcrel_hi(value)
        lb      a1, %pcrel_lo(1b)(a0)
        lhu     a1, %pcrel_lo(1b)(a0)
        flw     fa0, %pcrel_lo(1b)(a0)
        fld     fa1, %pcrel_lo(1b)(a0)
        addi    a2, a0, %pcrel_lo(1b)
        jalr    ra, %pcrel_lo(1b)(a0)
        sb      a1, %pcrel_lo(1b)(a0)
        sh      a1, %pcrel_lo(1b)(a0)
        sw      a1, %pcrel_lo(1b)(a0)
        fsw     fa0, %pcrel_lo(1b)(a0)
        fsd     fa1, %pcrel_lo(1b)(a0)
        .data
        .balign 8
        .space  0x7f4
value:  .space  25
