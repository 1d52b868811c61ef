/* A supervisor image at 0x80200000, where the firmware enters it. */
OUTPUT_ARCH(riscv)
ENTRY(boot_entry)
SECTIONS
{
    . = 0x80200000;
    .text   : { *(.text.boot) *(.text .text.*) *(.rodata .rodata.* .srodata .srodata.*) }
    .data   : { . = ALIGN(4096); *(.data .data.* .sdata .sdata.*) QUAD(0) }
    .bss    : { . = ALIGN(4096); bss_start = .; *(.bss .bss.* .sbss .sbss.*) . = ALIGN(8); bss_end = .; }
    .stacks (NOLOAD) : { *(.stacks) }
}
