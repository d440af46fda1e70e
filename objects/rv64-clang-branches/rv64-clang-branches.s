# BRANCH to externals at both ends of its range and between sections, as this assembler writes
# them by itself.
        .text
        beq     a0, a1, forward         # P 0x100000800, 4,094
        bne     a0, a1, back            # P 0x100000804, -4,096
        blt     a0, a1, forward
        bge     a0, a1, inside
        bltu    a0, a1, elsewhere
        bgeu    a0, a1, elsewhere
        jal     ra, forward
        j       back
inside: ret
        .section .text.elsewhere, "ax"
elsewhere:
        beqz    a0, inside
        bnez    a0, inside
        ret
