# Undefined weak symbols: 0 where the order gives no value, else the value. PCREL_HI20 reaches 0 from
# low addresses only.
        .text
        lui     a0, %hi(absent)
        addi    a0, a0, %lo(absent)
        sd      zero, %lo(absent - 8)(a0)
        lui     a0, %hi(absent - 0x800)
        addi    a0, a0, %lo(absent - 0x801)
        lui     a0, %hi(given)
        ld      a0, %lo(given)(a0)
1:      auipc   a1, %pcrel_hi(absent)
        addi    a1, a1, %pcrel_lo(1b)
        call    given
        .weak   absent, given
        .section .rodata
        .dword  absent, absent + 1, absent - 1, given
        .word   absent, absent - 1
        .reloc  ., R_RISCV_32_PCREL, absent
        .word   0
        .reloc  ., R_RISCV_SET16, given
        .reloc  ., R_RISCV_ADD16, absent + 1
        .half   0
