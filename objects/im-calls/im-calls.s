# Without compressed instructions: CALL_PLT over multiples of four, near and far, and over the whole
# address space.
        .text
        .globl  begin
begin:  call    near
        call    forward
        call    back
        call    high
        call    zero_address
        call    top
        call    begin - 0x800
        call    near + 0x7fc
        call    near - 4
        tail    forward
        tail    begin
        jump    back, t2
        call    t0, high
near:   ret
