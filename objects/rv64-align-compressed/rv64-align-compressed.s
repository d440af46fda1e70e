# ALIGN where compressed code may stand: the address leaves exactly the padding in place.
        .text
        .globl  f
f:      c.nop
        .balign 4
        c.nop
        call    f
        c.nop
        c.nop
        .balign 16
        call    g
        c.nop
        .balign 8
        c.nop
        .balign 4
        c.nop
        .balign 4
g:      ret
