# `.option rvc` without C in -march: this assembler then writes compressed jumps, and leaves bit 0 of
# e_flags clear all the same.
        .text
f:      call    outer
        addi    a0, a0, -1
        .option rvc
        c.beqz  a0, 1f
        c.j     f
        bnez    a1, f
1:      j       f
        ret
