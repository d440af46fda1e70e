# SET6 and SUB6 keep the top two bits of the byte.
        .macro  at kind, value, byte
        .reloc  ., R_RISCV_\kind, \value
        .byte   \byte
        .endm
        .data
        at      SET6, value, 0x00
        at      SET6, value, 0x40
        at      SET6, value, 0x80
        at      SET6, value, 0xff
        at      SET6, value + 0x3f, 0xc0
        at      SET6, value - 1, 0x3f
        at      SUB6, value, 0x00
        at      SUB6, value, 0x40
        at      SUB6, value, 0x80
        at      SUB6, value, 0xff
        at      SUB6, two, 0xc1
        at      SUB6, two, 0x40
