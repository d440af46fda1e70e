# Sections without bytes, far larger than the window and outside it: one of 2^62 bytes ends at 2^64.
# JAL reaches into those beside the code, at both ends of its range.
        .section .text.code, "ax"
        jal     low_end                 # -1,048,576
        jal     high_end - 0x36         # 1,048,574
        lla     a0, near
        lla     a1, near + 0x7fefe80f   # distance 2,147,481,599
        lbu     a2, near + 0x40000fff
        .dword  vast, vast + 0x3fffffffffffffff, vast + 0x4000000000000000
        .section .bss.low, "aw", @nobits
low_end: .space 0x100000
        .section .bss.high, "aw", @nobits
        .space  0x100000
high_end:
        .section .bss.near, "aw", @nobits
        .balign 16
near:   .space  0x80000000
        .section .bss.vast, "aw", @nobits
        .balign 16
vast:   .space  0x4000000000000000
