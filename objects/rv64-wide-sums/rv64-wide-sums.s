# ADD64 and SUB64 with values of 64 bits, and the narrower widths with the same: each wraps at its own.
        .data
        .reloc  ., R_RISCV_ADD64, top
        .8byte  0
        .reloc  ., R_RISCV_ADD64, top + 0x7fffffffffffffff
        .8byte  1
        .reloc  ., R_RISCV_SUB64, top
        .8byte  0
        .reloc  ., R_RISCV_ADD64, small - 0x1000
        .8byte  0
        .reloc  ., R_RISCV_SUB64, small
        .8byte  0x0000000100000000
        .reloc  ., R_RISCV_ADD64, middle - 0x1000
        .8byte  0x8000000000000000
        .reloc  ., R_RISCV_SUB64, middle
        .8byte  0x7fffffffffffffff
        .reloc  ., R_RISCV_ADD32, top + 0x7fffffff
        .4byte  5
        .reloc  ., R_RISCV_SUB32, middle
        .4byte  5
        .reloc  ., R_RISCV_ADD16, middle
        .2byte  0xffff
        .reloc  ., R_RISCV_SUB8, top
        .byte   0
