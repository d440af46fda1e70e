_start: call main
        .align 4
halt:   j halt
