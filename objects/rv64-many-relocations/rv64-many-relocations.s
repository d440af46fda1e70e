# 1,536 relocations of 24 bytes each: 768 differences of 64 bits.
        .option norelax
        .section .rodata
a:      .rept   768
        .dword  b - a
        .endr
        .text
        nop
b:      ret
