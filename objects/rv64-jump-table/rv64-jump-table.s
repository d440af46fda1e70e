# Three jump tables: words of 64 bits and of 32 bits, and words of distances from the table.
        .text
        .globl  pick
pick:   slli    a0, a0, 3
        lla     a1, table
        add     a0, a0, a1
        ld      a0, 0(a0)
        jr      a0
zero:   li      a0, 10
        ret
one:    li      a0, 11
        ret
two:    li      a0, 12
        ret
        .section .rodata
table:  .dword  zero, one, two, zero, two + 4
        .word   zero, one, two
offsets: .word  zero - offsets, one - offsets, two - offsets
        .half   one - zero, two - zero
        .byte   two - one, one - two
