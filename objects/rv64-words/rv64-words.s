# 64 and 32: words that name sections, externals, weak and absolute symbols, with addends of both
# signs. 32 keeps the low half of what it names.
        .text
        .globl start
start:  nop
        nop
middle: ret

        .data
        .dword start, middle, table, room, room + 60
        .dword start - 4, middle - 0x123456780000, table + 0x7fffffffffffffff
        .dword room - 0x8000000000000000
        .dword outer, outer - 1, outer + 0x1000, outer - 0x7fffffffffffffff
        .dword top, top + 1, top + 2, top - 1
        .dword absent, absent + 4, absent - 4
        .dword given, given - 0x800
        .dword fixed, fixed + 1, low, low - 0x80000000
        .word  start, middle - 4, table + 0x7fffffff, room - 0x80000000
        .word  outer, outer - 1, top, top + 1, absent - 4, given, fixed + 2, low
        .weak  absent, given
        .globl fixed, low
        .set fixed, 0xfffffffffffffffe
        .set low, 0x7fffffff

        .section .rodata
table:  .dword table, table + 4, table - 1
        .byte 1, 2, 3
unaligned:
        .8byte unaligned, start
        .4byte unaligned, start
        .byte 4

        .bss
room:   .space 64
