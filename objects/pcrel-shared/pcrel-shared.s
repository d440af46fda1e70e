# More than one low half for one high half; low halves that come before theirs in the file.
        .text
        j       2f
1:      lw      a0, %pcrel_lo(4f)(s0)
        sw      a0, %pcrel_lo(3f)(s1)
        addi    a1, s0, %pcrel_lo(4f)
        ret
2:
3:      auipc   s1, %pcrel_hi(counter)
4:      auipc   s0, %pcrel_hi(limit)
        lw      a2, %pcrel_lo(3b)(s1)
        lw      a3, %pcrel_lo(4b)(s0)
        addi    a2, a2, 1
        sw      a2, %pcrel_lo(3b)(s1)
        bne     a2, a3, 1b
        sw      zero, %pcrel_lo(3b)(s1)
        j       1b
        .section .rodata
limit:  .word   10
        .bss
        .balign 4
counter: .space 4
