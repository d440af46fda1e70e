# Jumps and branches near address 0 to an undefined weak symbol: they go to 0.
        .weak   absent
        .text
        jal     absent
        j       absent + 0x40
        .reloc  ., R_RISCV_BRANCH, absent
        .4byte  0x00b50063
        .reloc  ., R_RISCV_BRANCH, absent + 0x7f6
        .4byte  0x00b51063
        .reloc  ., R_RISCV_RVC_JUMP, absent
        .2byte  0xa001
        .reloc  ., R_RISCV_RVC_BRANCH, absent + 2
        .2byte  0xc101
        lla     a0, absent
        ld      a1, absent
        sd      a1, absent, t0
