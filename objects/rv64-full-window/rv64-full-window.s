# A window of 65,536 bytes with a section at each end, across 2^32.
        .section .text.low, "ax"
low:    call    high
        lla     a0, high
        jal     high
        .section .text.high, "ax"
high:   call    low
        lla     a0, low
        jal     low
        j       high
        .data
        .dword  high - low
