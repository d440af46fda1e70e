# Without compressed instructions: CALL_PLT over multiples of four, at both ends of the range, in a
# window across 2^63.
        .text
        .globl  begin
begin:  call    near
        call    forward                 # P begin + 0x08, distance 0x7ffff7fc, 2,147,481,596
        call    back                    # P begin + 0x10, distance -0x80000800, -2,147,485,696
        call    forward - 0x800
        call    back + 0x1000
        call    begin - 0x800
        call    near + 0x7fc
        call    near - 4
        tail    forward
        tail    begin
        jump    back + 0x80000800, t2
        call    t0, forward - 0x7ffff000
near:   ret
