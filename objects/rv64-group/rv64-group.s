# A section group: its own section is not allocated, its members are placed like any other.
        .section .text.shared, "axG", @progbits, shared, comdat
        .weak   shared
shared: lla     a0, kept
        ld      a0, kept
        ret
        .section .data.shared, "awG", @progbits, shared, comdat
        .weak   kept
kept:   .dword  shared, kept
        .text
        call    shared
        tail    shared
