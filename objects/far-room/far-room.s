# Sections without bytes, far larger than the window and outside it: one ends at 2^32. JAL reaches
# into those beside the code, at both ends of its range.
        .section .text.code, "ax"
        jal     low_end                 # -1,048,576
        jal     high_end - 0x22         # 1,048,574
        lui     a0, %hi(vast + 0x6fffffff)
        lbu     a0, %lo(vast + 0x6fffffff)(a0)
        lla     a1, vast + 0x40000800
        .word   vast, vast + 0x6fffffff, vast + 0x70000000
        .section .bss.low, "aw", @nobits
low_end: .space 0x100000
        .section .bss.high, "aw", @nobits
        .space  0x100000
high_end:
        .section .bss.vast, "aw", @nobits
        .balign 16
vast:   .space  0x70000000
