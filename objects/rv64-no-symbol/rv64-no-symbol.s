# Relocations without a symbol: S is 0 and the addend says all.
        .text
        .reloc  ., R_RISCV_HI20, 0x12345fff
        lui     a0, 0
        .reloc  ., R_RISCV_LO12_I, 0x12345fff
        addiw   a0, a0, 0
        .reloc  ., R_RISCV_HI20, -0x80000800
        lui     a0, 0
        .reloc  ., R_RISCV_LO12_S, 0x7ff
        sd      a1, 0(a0)
        .reloc  ., R_RISCV_JAL, 0x20000100
        .4byte  0x000000ef
        .data
        .reloc  ., R_RISCV_64, 0x89abcdef01234567
        .dword  0
        .reloc  ., R_RISCV_32, 0x89abcdef
        .word   0
        .reloc  ., R_RISCV_ADD16, 0x1234
        .half   1
        .reloc  ., R_RISCV_SET8, 0x7f
        .byte   0
