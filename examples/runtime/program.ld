/* Code and constants from address 0 on, then, from a multiple of 256 on, data and zeros: so a small change of the code moves
   no data, and accounts before and after it can be compared. The stacks are among the zeros, so the plan's memory covers
   all if it isn't less than the two loaded segments. */
ENTRY(_start)
PHDRS { code PT_LOAD FLAGS(5); data PT_LOAD FLAGS(6); }
SECTIONS
{
    . = 0;
    .text : { KEEP(*(.text.start)) *(.text .text.*) } :code
    .rodata : { *(.rodata .rodata.* .srodata .srodata.*) } :code
    . = ALIGN(256);
    .data : { *(.data .data.* .sdata .sdata.*) } :data
    .bss : { *(.sbss .sbss.* .bss .bss.* COMMON) } :data
    memory_used = .;
    .tls : { *(.tdata .tdata.* .tbss .tbss.* .tcommon) } :data
    /DISCARD/ : { *(.comment) *(.note .note.*) *(.eh_frame .eh_frame_hdr) *(.riscv.attributes) }
}
ASSERT(SIZEOF(.tls) == 0, "_Thread_local: threads here have no variables of their own, since tp is 0 in all")
