# RVC_JUMP and RVC_BRANCH at both ends of their range, to local labels; jumps of relaxable code
# keep their relocations.
        .text
back_jump:
        .rept   1024
        c.nop
        .endr
        c.j     back_jump               # -2,048
        c.j     forward_jump            # 2,046
        .rept   1022
        c.nop
        .endr
forward_jump:
        c.j     forward_jump
back_branch:
        .rept   128
        c.nop
        .endr
        c.beqz  a0, back_branch         # -256
        c.bnez  s1, forward_branch      # 254
        .rept   126
        c.nop
        .endr
forward_branch:
        c.bnez  a5, forward_branch
        c.beqz  s0, 1f
1:      c.j     2f
2:      c.j     1b
