# RELAX beside every kind of relaxable code; nothing is shortened.
        .text
        .globl  f
f:      call    near
        tail    f
        lui     a0, %hi(word)
        ld      a0, %lo(word)(a0)
        lui     a1, %hi(small)
        sd      a0, %lo(small)(a1)
        lla     a2, word
        la      a3, bytes
        ld      a4, word
        sd      a4, word, t0
        lwu     a5, bytes
        beqz    a0, near
        j       f
near:   ret
        .section .sdata, "aw"
word:   .dword  near
        .section .sbss, "aw", @nobits
bytes:  .space  5
