# 32: words that name sections, externals, weak and absolute symbols, with addends of both signs.
        .text
        .globl start
start:  nop
        nop
middle: ret

        .data
        .word start, middle, table, room, room + 60
        .word start - 4, middle - 0x20000000, table + 0x7fffffff, room - 0x80000000
        .word outer, outer - 1, outer + 0x1000, outer - 0x7fffffff
        .word top, top + 1, top + 2, top - 1
        .word absent, absent + 4, absent - 4
        .word given, given - 0x800
        .word fixed, fixed + 1
        .weak absent, given
        .globl fixed
        .set fixed, 0xfffffffe

        .section .rodata
table:  .word table, table + 4, table - 1
        .byte 1, 2, 3
unaligned:
        .4byte unaligned, start
        .byte 4

        .bss
room:   .space 64
