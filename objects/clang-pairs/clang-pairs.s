# High and low halves by the integrated assembler, relaxable and not, low before high.
        .text
        lui     a0, %hi(word)
        lw      a0, %lo(word)(a0)
        lui     a1, %hi(outer + 0x801)
        sw      a0, %lo(outer + 0x801)(a1)
.option relax
        lw      a3, %pcrel_lo(.Llater)(a2)
        sw      a3, %pcrel_lo(.Llater)(a2)
.Llater:
        auipc   a2, %pcrel_hi(word + 4)
        addi    a2, a2, %pcrel_lo(.Llater)
        lla     a4, outer
        .data
        .byte   0
        .p2align 2
word:   .word   outer, word
