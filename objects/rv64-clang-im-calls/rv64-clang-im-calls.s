# Without compressed instructions: CALL and CALL_PLT side by side over multiples of four, at both ends
# of the range.
        .text
        .globl  f
f:      call    near
        call    near@plt
        call    far                     # P 0x1_0000_0010, 2,147,481,596
        call    near_far@plt
        call    edge                    # low half -2,048
        tail    back                    # P 0x1_0000_0028, -2,147,485,696
        tail    near@plt
        call    t0, near_back
        jump    edge, t2
        .section .text.near, "ax"
        .globl  near
near:   call    f
        ret
