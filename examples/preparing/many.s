# 1,030 pairs: 4,120 relocations where the linker may relax.
        .rept 1030
        lui a0, %hi(outer)
        addi a0, a0, %lo(outer)
        .endr
