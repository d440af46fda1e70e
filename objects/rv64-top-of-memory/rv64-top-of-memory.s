# The window ends at 2^64: sections up to the last byte, sums that wrap, calls and pairs that go over
# the top.
        .text
        .globl  f
f:      call    far
        call    last - 1
        lui     a0, %hi(last)
        lbu     a0, %lo(last)(a0)
        lui     a1, %hi(last + 1)
        lbu     a1, %lo(last + 1)(a1)
1:      auipc   a2, %pcrel_hi(last)
        sb      a2, %pcrel_lo(1b)(a2)
1:      auipc   a3, %pcrel_hi(far)
        ld      a3, %pcrel_lo(1b)(a3)
1:      auipc   a4, %pcrel_hi(far + 0x7ffff700)
        ld      a4, %pcrel_lo(1b)(a4)
        jal     f - 0x7fe
        .section .rodata
        .dword  f, last, last + 1, last + 0x8000000000000000, far - 1, far - 0x11
        .section .data.last, "aw"
        .byte   0x5a, 0x5b
last:   .byte   0x5c
