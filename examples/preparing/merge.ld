SECTIONS {
  .text   0 : { *(.text .text.*) }
  .rodata 0 : { *(.rodata .rodata.* .srodata .srodata.*) }
  .data   0 : { *(.data .data.* .sdata .sdata.*) }
  .bss    0 : { *(.bss .bss.* .sbss .sbss.* COMMON) }
}
