# RVC_JUMP and RVC_BRANCH by .reloc, to externals at both ends of their range.
        .macro  jump word, name
        .reloc  ., R_RISCV_RVC_JUMP, \name
        .2byte  \word
        .endm
        .macro  branch word, name
        .reloc  ., R_RISCV_RVC_BRANCH, \name
        .2byte  \word
        .endm
        .text
        jump    0xa001, place + 2046            # at place
        jump    0xa001, place - 2048 + 2        # at place + 2
        jump    0xa001, place + 4 + 0x2aa       # at place + 4
        jump    0xbffd, place + 6 - 0x556       # bits of the field are replaced
        branch  0xc101, place + 8 + 254
        branch  0xc381, place + 10 - 256
        branch  0xfffd, place + 12 + 0xaa       # c.bnez a5
        branch  0xe081, place + 14 - 0x56
