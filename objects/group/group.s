# A section group: its own section is not allocated, its members are placed like any other.
        .section .text.shared, "axG", @progbits, shared, comdat
        .weak   shared
shared: lui     a0, %hi(kept)
        lw      a0, %lo(kept)(a0)
        ret
        .section .data.shared, "awG", @progbits, shared, comdat
        .weak   kept
kept:   .word   shared, kept
        .text
        call    shared
        tail    shared
