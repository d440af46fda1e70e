# 1,024 symbols, the most that an object may have.
        .macro  name number
        .globl  s\number
s\number:
        .byte   \number % 256
        .endm
        .data
        .altmacro
        .set    count, 0
        .rept   1017
        name    %count
        .set    count, count + 1
        .endr
        .section .rodata
        .dword  s0, s1, s1000, s1009, s500 - 1
