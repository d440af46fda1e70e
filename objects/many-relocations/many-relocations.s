# 4,096 relocations, the most that an object may have: 2,048 differences.
        .option norelax
        .section .rodata
a:      .rept   2048
        .word   b - a
        .endr
        .text
        nop
b:      ret
