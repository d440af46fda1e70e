# The window begins at 0; reaching down from it goes round to the top.
        .text
        .globl  f
f:      call    top
        lui     a0, %hi(f)
        addi    a0, a0, %lo(f)
        lui     a1, %hi(f - 1)
        addi    a1, a1, %lo(f - 1)
1:      auipc   a2, %pcrel_hi(top)
        ld      a2, %pcrel_lo(1b)(a2)
        lui     a3, %hi(room)
        sd      a3, %lo(room)(a3)
1:      auipc   a4, %pcrel_hi(f - 0x7ffff000)
        addi    a4, a4, %pcrel_lo(1b)
        .data
        .dword  f, f - 1, top, room, room + 255
        .word   top
        .reloc  ., R_RISCV_32_PCREL, top
        .word   0
        .bss
room:   .space  256
