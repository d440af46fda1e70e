# Many sections: odd sizes, alignments from 1 to 16, empty ones, and kinds beside PROGBITS.
        .section .text.a, "ax"
a:      lla     a0, d2
        ld      a0, d2
        ret
        .section .text.b, "ax"
        .p2align 4
b:      call    a
        ret
        .section .rodata.1, "a"
r1:     .byte   1, 2, 3
        .section .rodata.2, "a"
        .balign 2
r2:     .half   4, 5
        .byte   6
        .section .rodata.8, "a"
        .balign 8
r8:     .dword  r1, r2
        .byte   7
        .section .data.1, "aw"
d1:     .8byte  a, b + 1
        .byte   8
        .section .data.16, "aw"
        .balign 16
d2:     .dword  d1, z1, z2, init
        .byte   9, 10
        .section .bss.1, "aw", @nobits
z1:     .space  7
        .section .bss.16, "aw", @nobits
        .balign 16
z2:     .space  33
        .section .init_array, "aw", @init_array
        .balign 8
init:   .dword  a, b
        .section .note.tag, "a", @note
        .balign 4
        .word   4, 4, 1
        .asciz  "tag"
        .word   r8
        .section .nothing, "a"
        .balign 16
empty:
        .data
        .dword  empty, init
