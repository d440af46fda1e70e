# High and low halves by the integrated assembler, relaxable and not, low before high, ADDIW too.
        .text
        lui     a0, %hi(word)
        ld      a0, %lo(word)(a0)
        lui     a1, %hi(outer + 0x801)
        sd      a0, %lo(outer + 0x801)(a1)
        lui     a5, %hi(outer)
        addiw   a5, a5, %lo(outer)
.option relax
        ld      a3, %pcrel_lo(.Llater)(a2)
        sd      a3, %pcrel_lo(.Llater)(a2)
.Llater:
        auipc   a2, %pcrel_hi(word + 8)
        addi    a2, a2, %pcrel_lo(.Llater)
        lla     a4, outer
        .data
        .byte   0
        .p2align 3
word:   .quad   outer, word
        .word   outer
