# Weak symbols that are defined: their own definition counts.
        .text
        .weak   handler, table, room
        .globl  reset
reset:  call    handler
        lui     a0, %hi(table)
        addi    a0, a0, %lo(table)
        lla     a1, room
        jal     handler
        j       handler
handler:
        j       handler
        .section .vectors, "a"
table:  .word   reset, handler, table, room + 8
        .bss
        .balign 8
room:   .space  16
