# Weak symbols that are defined: their own definition counts.
        .text
        .weak   handler, table, room
        .globl  reset
reset:  call    handler
        lla     a0, table
        lla     a1, room
        jal     handler
        j       handler
handler:
        j       handler
        .section .vectors, "a"
table:  .dword  reset, handler, table, room + 8
        .word   table
        .bss
        .balign 8
room:   .space  16
