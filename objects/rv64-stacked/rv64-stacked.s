# Several relocations at one place: each starts from what the one before left.
        .macro  at offset, kind, value
        .reloc  here + \offset, R_RISCV_\kind, \value
        .endm
        .data
here:   .byte   0xf0, 0xc1, 0x3f, 0x80
        .2byte  0xfff0, 0x1234
        .4byte  0xfffffff0, 0x12345678
        .8byte  0xfffffffffffffff0
        at      0, ADD8, value
        at      0, ADD8, value + 0x20
        at      0, SUB8, two
        at      1, SUB6, two
        at      2, SET6, value
        at      2, SUB6, two
        at      2, SUB6, value
        at      3, SET8, value + 0x1ff
        at      3, ADD8, two
        at      4, SET16, value
        at      4, SUB16, two
        at      4, ADD16, value - 0x7ff
        at      6, ADD16, value
        at      8, SET32, value + 0x1000
        at      8, ADD32, two
        at      8, SUB32, value
        at      12, ADD32, value
        at      12, ADD32, value
        at      12, SUB32, two
        at      16, ADD64, value
        at      16, SUB64, two
        at      16, SUB64, value
