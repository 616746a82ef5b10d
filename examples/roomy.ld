/* Code alone in its segment, constants and data far behind it: room for new code of up to 16 MiB. */
ENTRY(_start)
PHDRS {
  text PT_LOAD FLAGS(5);
  constants PT_LOAD FLAGS(4);
  data PT_LOAD FLAGS(6);
  tls PT_TLS FLAGS(4);
}
SECTIONS {
  . = 0x10000;
  .text : { *(.text.startup .text.startup.*) *(.text .text.*) } :text
  . = 0x1100000;
  .rodata : { *(.rodata .rodata.* .srodata .srodata.*) *(.data.rel.ro .data.rel.ro.*) } :constants
  . = ALIGN(0x1000);
  .data : {
    *(.data .data.*) *(.sdata .sdata.*) *(.got .got.*)
    . = ALIGN(8);
    __init_array_start = .;
    KEEP(*(SORT_BY_INIT_PRIORITY(.init_array.*)))
    KEEP(*(.init_array))
    __init_array_end = .;
    __fini_array_start = .;
    KEEP(*(SORT_BY_INIT_PRIORITY(.fini_array.*)))
    KEEP(*(.fini_array))
    __fini_array_end = .;
  } :data
  .tdata : { __tdata_start = .; *(.tdata .tdata.*) __tdata_end = .; } :data :tls
  .tbss : { *(.tbss .tbss.*) } :data :tls
  .bss : { *(.sbss .sbss.*) *(.bss .bss.*) *(COMMON) } :data
  /DISCARD/ : { *(.eh_frame .eh_frame.*) *(.note .note.*) }
}
ASSERT(SIZEOF(.tdata) + SIZEOF(.tbss) <= 4096, "start.c has 4096 bytes for thread-local data")
