# HI20, LO12_I, LO12_S: targets on each side of every step of the high half, and at both ends of
# what LUI reaches: 0x7ffff7ff, and 0xffffffff7ffff800, which is -0x80000800. A low half has no range.
        .macro both name
        lui     a0, %hi(\name)
        addi    a0, a0, %lo(\name)
        lw      a1, %lo(\name)(a0)
        sd      a1, %lo(\name)(a0)
        .endm
        .text
        both    t_000
        both    t_7ff
        both    t_800
        both    t_fff
        both    last
        both    first
        both    sign
        both    sign - 1
        both    last_before_top
        both    first_after_top
        both    all_ones
        both    zero
        both    t_fff + 1
        both    t_800 - 1
        both    t_000 - 0x801
        both    all_ones + 1
        both    zero - 0x800
        both    zero - 0x801
        both    sign + 0x7ffff7ff
        addi    a0, a0, %lo(far)
        addi    a0, a0, %lo(far + 1)
        sd      a1, %lo(far - 0x800)(a0)
