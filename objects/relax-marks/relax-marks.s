# RELAX beside every kind of relaxable code; nothing is shortened.
        .text
        .globl  f
f:      call    near
        tail    f
        lui     a0, %hi(word)
        lw      a0, %lo(word)(a0)
        lui     a1, %hi(small)
        sw      a0, %lo(small)(a1)
        lla     a2, word
        la      a3, bytes
        lw      a4, word
        sw      a4, word, t0
        lb      a5, bytes
        beqz    a0, near
        j       f
near:   ret
        .section .sdata, "aw"
word:   .word   near
        .section .sbss, "aw", @nobits
bytes:  .space  5
