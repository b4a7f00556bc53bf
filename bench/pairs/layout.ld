/* Where the machine wants the text and the data of an image. */
ENTRY(__start)
PHDRS { text PT_LOAD FLAGS(5); data PT_LOAD FLAGS(6); }
SECTIONS {
  .text 0x00400000 : { *(.text .text.*) } :text
  .data 0x10000000 : { *(.rodata .rodata.* .data .sdata .bss .sbss .scommon COMMON) } :data
  /DISCARD/ : { *(*) }
}
