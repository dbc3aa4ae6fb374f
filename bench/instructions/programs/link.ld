/* One segment from 0x10000 on: code, and on pages of its own what is written. */
SECTIONS
{
	. = 0x10000;
	.all : { *(.start) *(.text*) *(.rodata*) . = ALIGN(4096); *(.sdata*) *(.data*) *(.sbss*) *(.bss*) *(COMMON) BYTE(0) }
	/DISCARD/ : { *(.comment) *(.riscv.attributes) *(.eh_frame*) *(.note*) }
}
