# ADD64 and SUB64: S + A is not reduced to 32 bits before it is added.
        .data
        .reloc  ., R_RISCV_ADD64, top
        .8byte  0
        .reloc  ., R_RISCV_ADD64, top + 0x7fffffff
        .8byte  1
        .reloc  ., R_RISCV_SUB64, top
        .8byte  0
        .reloc  ., R_RISCV_ADD64, small - 0x1000
        .8byte  0
        .reloc  ., R_RISCV_SUB64, small
        .8byte  0x0000000100000000
        .reloc  ., R_RISCV_ADD64, small - 0x1000
        .8byte  0x0000000100000000
        .reloc  ., R_RISCV_ADD32, top + 0x7fffffff
        .4byte  5
        .reloc  ., R_RISCV_SUB32, small
        .4byte  5
