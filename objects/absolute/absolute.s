# Absolute symbols, global and local, small, large and above 0x7fffffff.
        .text
        lui     a0, %hi(uart)
        sw      a1, %lo(uart + 4)(a0)
        lui     a2, %hi(edge)
        addi    a2, a2, %lo(edge)
        lui     a3, %hi(high)
        lw      a3, %lo(high)(a3)
        lw      a4, %lo(small)(zero)
1:      auipc   a5, %pcrel_hi(uart)
        lw      a5, %pcrel_lo(1b)(a5)
        call    rom
        jal     close
        .data
        .word   uart, edge, high, small, small - 0x100, rom + 2
        .globl  uart, edge, high, small, rom, close
        .set    uart, 0x10000000
        .set    edge, 0x12345fff
        .set    high, 0xfffff800
        .set    small, 0x7c
        .set    rom, 0x1fff0000
        .set    close, 0x20000800
