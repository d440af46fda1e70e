# .eh_frame of relaxable code: the advances are SET6 and SUB6, SET8 and SUB8, SET16 and SUB16.
        .text
        .globl  f
f:      .cfi_startproc
        addi    sp, sp, -16
        .cfi_def_cfa_offset 16
        call    g
        sd      ra, 8(sp)
        .cfi_offset ra, -8
        call    g
        .rept   40
        addi    a0, a0, 1
        .endr
        ld      ra, 8(sp)
        .cfi_restore ra
        call    g
        .rept   100
        addi    a0, a0, 1
        .endr
        .cfi_remember_state
        addi    sp, sp, 16
        .cfi_def_cfa_offset 0
        ret
        .cfi_restore_state
        call    g
        ret
        .cfi_endproc
h:      .cfi_startproc
        tail    f
        .cfi_endproc
