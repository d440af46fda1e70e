# Without compressed instructions: of all but jumps and calls no multiple of four is asked. Halves,
# words and differences of odd addresses.
        .text
f:      lui     a0, %hi(odd)
        addi    a0, a0, %lo(odd)
        sw      a1, %lo(odd + 2)(a0)
        lla     a2, odd
        lla     a3, odd + 1
        lla     a4, table + 2
1:      auipc   a5, %pcrel_hi(f + 2)
        lw      a6, %pcrel_lo(1b)(a5)
        sw      a7, %pcrel_lo(1b)(a5)
        nop
        .balign 8
g:      ret
        .data
        .byte   0
table:  .word   f + 2
        .word   odd
        .word   g - f
        .half   g - f
        .byte   g - f
        .word   odd - .
