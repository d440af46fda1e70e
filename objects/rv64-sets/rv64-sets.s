# SET8, SET16, SET32 and 32_PCREL by .reloc, with addends of both signs; 32_PCREL keeps the low half
# of any distance.
        .macro  at kind, value
        .reloc  ., R_RISCV_\kind, \value
        .endm
        .data
        at      SET8, value
        .byte   0xff
        at      SET8, value - 0x79
        .byte   0
        at      SET16, value
        .2byte  0xffff
        at      SET16, value - 0x5679
        .2byte  0
        at      SET32, value
        .4byte  0xffffffff
        at      SET32, value - 0x12345679
        .4byte  0
        at      32_PCREL, value
        .4byte  0xffffffff
        at      32_PCREL, here
here:   .4byte  0
        at      32_PCREL, here - 4
        .4byte  0
        at      32_PCREL, top + 1
        .4byte  0
        .byte   0
        at      32_PCREL, here
        .4byte  0
