# CALL and CALL_PLT side by side, near and far, with several link registers, at both ends of the range.
        .text
        .globl  f
f:      call    near
        call    near@plt
        call    far                     # P f + 0x10, 2,147,481,598
        call    far@plt
        call    edge                    # low half -2,048
        tail    back                    # P f + 0x28, -2,147,485,696
        tail    near@plt
        call    t0, high
        jump    edge, t2
        .section .text.near, "ax"
        .globl  near
near:   call    f
        ret
