# Without compressed instructions: CALL and CALL_PLT side by side over multiples of four.
        .text
        .globl  f
f:      call    near
        call    near@plt
        call    far
        call    far@plt
        call    edge                    # low half -2,048
        tail    far
        tail    near@plt
        call    t0, high
        jump    edge, t2
        .section .text.near, "ax"
        .globl  near
near:   call    f
        ret
