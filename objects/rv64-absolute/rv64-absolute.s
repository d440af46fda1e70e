# Absolute symbols, global and local, small, large and negative.
        .text
        lui     a0, %hi(uart)
        sw      a1, %lo(uart + 4)(a0)
        lui     a2, %hi(edge)
        addi    a2, a2, %lo(edge)
        lui     a3, %hi(high)
        ld      a3, %lo(high)(a3)
        ld      a4, %lo(small)(zero)
1:      auipc   a5, %pcrel_hi(uart)
        ld      a5, %pcrel_lo(1b)(a5)
        call    rom
        jal     close
        .data
        .dword  uart, edge, high, small, small - 0x100, rom + 2, vast
        .word   vast, high
        .globl  uart, edge, high, small, rom, close, vast
        .set    uart, 0x10000000
        .set    edge, 0x12345fff
        .set    high, 0xfffffffffffff800
        .set    small, 0x78
        .set    rom, 0x1fff0000
        .set    close, 0x20000800
        .set    vast, 0x123456789abcdef0
