# Without compressed instructions: JAL and BRANCH to externals as far as they go in steps of four
# bytes, and between sections, as this assembler writes them by itself. One section is at 2 modulo 4.
        .text
        beq     a0, a1, forward         # P 0x1_0000_0800, 4,092
        bne     a0, a1, back            # P 0x1_0000_0804, -4,096
        blt     a0, a1, forward
        bge     a0, a1, inside
        jal     ra, far_forward         # P 0x1_0000_0810, 1,048,572
        j       far_back                # P 0x1_0000_0814, -1,048,576
        bltu    a0, a1, forward
inside: j       elsewhere
        .section .text.elsewhere, "ax"
elsewhere:
        beqz    a0, inside
        bnez    a0, inside
        jal     t0, inside
        ret
        .section .text.beside, "ax"
        beq     a0, a1, beside_end
        jal     ra, beside_end
        ret
