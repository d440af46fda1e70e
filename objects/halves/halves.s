# HI20, LO12_I, LO12_S: targets on each side of every step of the high half.
        .macro both name
        lui     a0, %hi(\name)
        addi    a0, a0, %lo(\name)
        lw      a1, %lo(\name)(a0)
        sw      a1, %lo(\name)(a0)
        .endm
        .text
        both    t_000
        both    t_7ff
        both    t_800
        both    t_fff
        both    last_before_sign
        both    first_after_sign
        both    sign
        both    last_before_top
        both    first_after_top
        both    all_ones
        both    zero
        both    t_fff + 1
        both    t_800 - 1
        both    t_000 - 0x801
        both    all_ones + 1
        both    zero - 0x800
        both    zero - 0x801
