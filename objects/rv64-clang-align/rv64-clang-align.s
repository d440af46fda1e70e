# ALIGN as this assembler writes it.
        .text
        c.nop
        .p2align 2
        call    f
        c.nop
        c.nop
        c.nop
        .p2align 3
f:      c.nop
        c.nop
        c.nop
        c.nop
        c.nop
        .p2align 4
        ret
