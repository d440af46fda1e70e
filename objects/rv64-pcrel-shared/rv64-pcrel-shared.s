# More than one low half for one high half; low halves that come before theirs in the file.
        .text
        j       2f
1:      ld      a0, %pcrel_lo(4f)(s0)
        sd      a0, %pcrel_lo(3f)(s1)
        addi    a1, s0, %pcrel_lo(4f)
        ret
2:
3:      auipc   s1, %pcrel_hi(counter)
4:      auipc   s0, %pcrel_hi(limit)
        ld      a2, %pcrel_lo(3b)(s1)
        ld      a3, %pcrel_lo(4b)(s0)
        addi    a2, a2, 1
        sd      a2, %pcrel_lo(3b)(s1)
        bne     a2, a3, 1b
        sd      zero, %pcrel_lo(3b)(s1)
        j       1b
        .section .rodata
limit:  .dword  10
        .bss
        .balign 8
counter: .space 8
