# ALIGN without compressed code: boundaries of 8, 16, 32 and 64 bytes.
        .text
        nop
        .balign 8
        call    f
        nop
        .balign 16
f:      nop
        .balign 32
        nop
        .balign 64
        lla     a0, f
        ret
