# ADD and SUB of every width by the integrated assembler.
        .text
a:      call    a
b:      call    b
c:      ret
        .data
        .byte   c - a
        .half   c - b
        .word   a - c
        .quad   a - c
        .word   c - .
        .quad   outer - a
        .word   outer - .
        .byte   1 + b - a
