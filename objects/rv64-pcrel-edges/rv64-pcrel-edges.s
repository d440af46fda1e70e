# PCREL_HI20, PCREL_LO12_I, PCREL_LO12_S: distances on each side of every step of the high half, and
# at both ends of the range, above 2^32.
        .macro near name
1:      auipc   a0, %pcrel_hi(\name)
        addi    a0, a0, %pcrel_lo(1b)
        sd      zero, %pcrel_lo(1b)(a0)
        nop
        .endm
        .text
        near    d_7ff           # at 0x00
        near    d_800           # at 0x10
        near    d_fff           # at 0x20
        near    d_000           # at 0x30
        near    d_minus_800     # at 0x40
        near    d_minus_801     # at 0x50
        near    far_last        # at 0x60: distance 0x7ffff7ff, 2,147,481,599
        near    far_first       # at 0x70: distance -0x80000800, -2,147,485,696
        near    far_minus       # at 0x80: distance -0x80000000
        near    far_step        # at 0x90: distance -0x7ffff801
        near    far_last + 0x40 # at 0xa0
        near    self            # at 0xb0
        near    self - 1        # at 0xc0
        near    self + 0x1000   # at 0xd0
        near    after           # at 0xe0
self:   .dword  self
        .bss
        .space  3
after:  .space  1
