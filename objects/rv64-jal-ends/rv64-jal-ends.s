# JAL at both ends of its range, to externals, with 2^32 between the two.
        .text
        jal     ra, forward_end         # P 0xffff0000, distance 1,048,574
        jal     zero, back_end          # P 0xffff0004, distance -1,048,576
        jal     t0, forward_end - 2     # P 0xffff0008
        jal     ra, back_end + 0x800    # P 0xffff000c
        jal     ra, back_end + 0xffffe  # P 0xffff0010
        j       odd_bits                # P 0xffff0014
        j       self
self:   j       self - 2
