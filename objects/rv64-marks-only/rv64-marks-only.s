# NONE, RELAX and ALIGN alone, one of each at the end of a section. No byte is changed by them.
        .weak   nowhere
        .option norelax
        .section .note.marks, "a"
        .byte   1, 2, 3, 4, 5, 6, 7
1:      .reloc  1b - 7, R_RISCV_NONE, nowhere
        .reloc  1b - 5, R_RISCV_RELAX, 0
        .reloc  1b - 5, R_RISCV_NONE, 0
        .reloc  1b, R_RISCV_RELAX, 0
        .reloc  1b, R_RISCV_NONE, 0
        .reloc  1b, R_RISCV_ALIGN, 0
