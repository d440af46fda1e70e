start:  call outer
end:    ret
        .section .rodata
        .uleb128 end - start
