# The window ends at 2^32: sections up to the last byte, sums that wrap.
        .text
        .globl  f
f:      call    far
        call    last - 1
        lui     a0, %hi(last)
        lbu     a0, %lo(last)(a0)
        lui     a1, %hi(last + 1)
        lbu     a1, %lo(last + 1)(a1)
1:      auipc   a2, %pcrel_hi(last)
        sb      a2, %pcrel_lo(1b)(a2)
1:      auipc   a3, %pcrel_hi(far)
        lw      a3, %pcrel_lo(1b)(a3)
        jal     f - 0x7fe
        .section .rodata
        .word   f, last, last + 1, last + 0x80000000, far - 1
        .section .data.last, "aw"
        .byte   0x5a, 0x5b
last:   .byte   0x5c
