ENTRY(reset)
SECTIONS {
  .text : { KEEP(*(.vectors)) *(.text*) *(.rodata*) *(.init) *(.fini) } > flash
  .ARM.exidx : { *(.ARM.exidx*) } > flash
  .data : { *(.data*) KEEP(*(.init_array*)) KEEP(*(.fini_array*)) } > ram
  .bss : { __bss_start__ = .; *(.bss*) *(COMMON) . = ALIGN(8); __bss_end__ = .; } > ram
  end = .; __end__ = .;
  __stack = ORIGIN(ram) + LENGTH(ram);
}
