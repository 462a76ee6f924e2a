/* A page that no pointer leads to, code and constants, then data, zeros, the heap, and for each thread its stack, its block and its
   _Thread_local variables. The page at 0 is filled with a word that is neither an instruction nor an address: so a call by a null pointer
   faults with 2, what is loaded through one leads nowhere, and what is stored is seen at the end. */
ENTRY(_start)
PHDRS { null PT_LOAD FLAGS(4); code PT_LOAD FLAGS(5); data PT_LOAD FLAGS(6); tls PT_TLS; }
SECTIONS
{
    . = 0;
    .null : { __null_page = .; LONG(0x4E554C4D) . = 0x100; } :null =0x4D4C554E
    .text : {
        KEEP(*(.text.start))
        *(EXCLUDE_FILE(*libdelorean.a:* *libc.a:* *libm.a:* *libgcc.a:*) .text EXCLUDE_FILE(*libdelorean.a:* *libc.a:* *libm.a:* *libgcc.a:*) .text.*)
        __library_code = .; /* what comes after it isn't the program's own: hunt/find tells calls of it as calls */
        *(.text .text.*)
    } :code
    .rodata : {
        *(.rodata .rodata.* .srodata .srodata.*)
        . = ALIGN(4);
        __numbers = .; LONG(__most_threads) LONG(__thread_room) LONG(__stack_size) LONG(__main_stack_room) LONG(__tls_filled) LONG(__tls_room)
        __preinit_array_start = .; KEEP(*(.preinit_array)) __preinit_array_end = .;
        __init_array_start = .; KEEP(*(SORT_BY_INIT_PRIORITY(.init_array.*))) KEEP(*(.init_array)) __init_array_end = .;
        __fini_array_start = .; KEEP(*(SORT_BY_INIT_PRIORITY(.fini_array.*))) KEEP(*(.fini_array)) __fini_array_end = .;
    } :code
    . = ALIGN(256);
    .data : {
        *(.data .data.*)
        . = ALIGN(8);
        __global_pointer$ = . + 0x800;
        *(.sdata .sdata.*)
        . = ALIGN(16);
    } :data
    .tdata : { __tls_start = .; *(.tdata .tdata.*) } :data :tls
    .tbss (NOLOAD) : { *(.tbss .tbss.* .tcommon) } :tls
    __tls_filled = SIZEOF(.tdata);
    __tls_room = ALIGN(ADDR(.tbss) + SIZEOF(.tbss) - ADDR(.tdata), 16);
    . = ALIGN(16);
    .bss : {
        *(.sbss .sbss.* .bss .bss.* COMMON)
        . = ALIGN(16);
        __heap = .; . += __heap_size; __heap_end = .;
        . = ALIGN(16);
        . += __main_extra;
        __threads = .; __main_stack = . + __stack_size; __main_tp = __main_stack + 512;
        . += __most_threads * (__stack_size + 512 + __tls_room);
    } :data
    __thread_room = __stack_size + 512 + __tls_room;
    __main_stack_room = __main_extra + __stack_size;
    memory_used = .;
    .delorean.acquires 0 (INFO) : { KEEP(*(.delorean.acquires)) }
    .delorean.releases 0 (INFO) : { KEEP(*(.delorean.releases)) }
    /DISCARD/ : { *(.comment) *(.note .note.*) *(.eh_frame .eh_frame_hdr) *(.riscv.attributes) }
}
ASSERT(ALIGNOF(.tdata) <= 16 && ALIGNOF(.tbss) <= 16, "a _Thread_local variable is aligned to more than 16 bytes")
