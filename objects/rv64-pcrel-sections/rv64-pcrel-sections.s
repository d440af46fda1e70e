# Two text sections whose pairs have the same offsets: a pair is looked for in its own section.
        .section .text.one, "ax"
one:
1:      auipc   a0, %pcrel_hi(first)
        ld      a0, %pcrel_lo(1b)(a0)
        sd      a0, %pcrel_lo(2f)(a1)
2:      auipc   a1, %pcrel_hi(second)
        ret
        .section .text.two, "ax"
two:
1:      auipc   a0, %pcrel_hi(second)
        ld      a0, %pcrel_lo(1b)(a0)
        sd      a0, %pcrel_lo(2f)(a1)
2:      auipc   a1, %pcrel_hi(first)
        tail    one
        .data
first:  .dword  two
second: .dword  one
