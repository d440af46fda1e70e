# A full section header table: 32 sections.
        .macro  one letter
        .section .data.\letter, "aw"
        .balign 8
        .dword  start + 0x\letter
        .byte   0x\letter
        .endm
        .section .rodata
start:  .dword  start
        .irp    letter, a0, a1, a2, a3, a4, a5, a6, a7, a8, a9, aa
        one     \letter
        .endr
