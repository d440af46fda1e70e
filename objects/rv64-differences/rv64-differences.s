# ADD8..64 and SUB8..64: differences of labels in relaxable code, in unaligned places too.
        .text
a:      call    elsewhere
b:      call    elsewhere
        nop
c:      ret
        .section .rodata
        .byte   c - a, b - c, b - a + 0xf0
        .half   c - a, a - c, c - b + 0xfff8
        .word   c - a, a - c, b - a - 0x80000000
        .dword  c - a, a - c, c - b + 0x7ffffffffffffff8
        .byte   c - b
        .8byte  a - b
        .4byte  b - c
        .2byte  b - c
