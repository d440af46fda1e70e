# JAL at both ends of its range, to externals.
        .text
        jal     ra, forward_end         # P 0x20000000, distance 1,048,574
        jal     zero, back_end          # P 0x20000004, distance -1,048,576
        jal     t0, forward_end - 2     # P 0x20000008
        jal     ra, back_end + 0x800    # P 0x2000000c
        jal     ra, back_end + 0xffffe  # P 0x20000010
        j       odd_bits                # P 0x20000014
        j       self
self:   j       self - 2
