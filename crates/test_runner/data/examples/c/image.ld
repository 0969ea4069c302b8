/* Lays out an image with the headers that it needs: `objcopy -O binary` then writes exactly these bytes. Text, with
   constants, stands from 0x00010000 on; data, if there is any, from the next page on. The headers stand in the page
   before the text, which no segment names, so that it is a page of the file and none of the program.
   It serves GNU ld and LLVM's lld. Of sections that it does not name, those that are written go with the data, all others with the
   text. build.sh counts the pages. */
ENTRY(_start)
/* The segments of the linker's own file, which build.sh -g keeps; there it makes the first one a segment of no kind. */
PHDRS
{
    headers PT_LOAD FLAGS(4);
    text PT_LOAD FLAGS(5);
    data PT_LOAD FLAGS(6);
    thread PT_TLS;
}
SECTIONS
{
    /DISCARD/ : { *(.comment .riscv.attributes .note* .eh_frame* .rela* .stab*) }
    .headers 0xF000 :
    {
        LONG(0x464C457F) LONG(0x00010101) LONG(0) LONG(0)   /* an ELF file, 32 bits, little-endian */
        SHORT(2) SHORT(243) LONG(1)                         /* executable, RISC-V */
        LONG(_start) LONG(52) LONG(0) LONG(0)               /* the entry; the headers below; no sections, no flags */
        SHORT(52) SHORT(32) SHORT(data_end > data_start ? 2 : 1) SHORT(0) SHORT(0) SHORT(0)
        /* text: the kind, its place in the file, its address twice, its size twice, the rights, a page */
        LONG(1) LONG(0x1000) LONG(0x10000) LONG(0x10000)
        LONG(text_end - 0x10000) LONG(text_end - 0x10000) LONG(5) LONG(0x1000)
        /* data, of which the file has no zeros at the end */
        LONG(1) LONG(bytes_end > data_start ? data_start - 0xF000 : 0) LONG(data_start) LONG(data_start)
        LONG(bytes_end - data_start) LONG(data_end - data_start) LONG(6) LONG(0x1000)
        . = ALIGN(0x1000);
    } :headers
    .text 0x10000 :
    {
        KEEP(*(.text.start)) *(.text .text.*) *(.rodata .rodata.* .srodata .srodata.*)
        INPUT_SECTION_FLAGS(SHF_EXECINSTR) *(*)
        INPUT_SECTION_FLAGS(SHF_ALLOC & !SHF_WRITE) *(*)
        text_end = .;
    } :text
    . = ALIGN(0x1000);
    data_start = .;
    /* What runs before main and after exit, in its order. */
    .init_array :
    {
        __preinit_array_start = .;
        KEEP(*(.preinit_array))
        __preinit_array_end = .;
        __init_array_start = .;
        KEEP(*(SORT_BY_INIT_PRIORITY(.init_array.*))) KEEP(*(.init_array))
        __init_array_end = .;
        __fini_array_start = .;
        KEEP(*(SORT_BY_INIT_PRIORITY(.fini_array.*))) KEEP(*(.fini_array))
        __fini_array_end = .;
    } :data
    .data :
    {
        *(.data .data.* .sdata .sdata.* .got .got.plt)
        /* Each name but those that begin as .bss, .sbss, .tbss and COMMON. */
        INPUT_SECTION_FLAGS(SHF_WRITE & !SHF_TLS) *([!.C]* C[!O]* .[!bst]* .b[!s]* .s[!b]* .t[!b]*)
    }
    /* Thread-local data stands where it is used, since there is one thread. */
    .tdata : { *(.tdata .tdata.*) } :data :thread
    bytes_end = .;
    .tbss : { *(.tbss .tbss.* .tcommon) } :data :thread
    __tls_base = SIZEOF(.tdata) > 0 ? ADDR(.tdata) : ADDR(.tbss);
    . = SIZEOF(.tbss) > 0 ? ADDR(.tbss) + SIZEOF(.tbss) : .;
    .bss : { *(.sbss .sbss.* .bss .bss.* COMMON) } :data
    data_end = .;
    .symtab 0 : { *(.symtab) }
    .strtab 0 : { *(.strtab) }
    .shstrtab 0 : { *(.shstrtab) }
    /* What gdb reads. It has no address, and so no place in the image. */
    .debug_aranges 0 : { *(.debug_aranges) }
    .debug_macro 0 : { *(.debug_macro) }
    .debug_info 0 : { *(.debug_info) }
    .debug_abbrev 0 : { *(.debug_abbrev) }
    .debug_line 0 : { *(.debug_line) }
    .debug_line_str 0 : { *(.debug_line_str) }
    .debug_str 0 : { *(.debug_str) }
    .debug_str_offsets 0 : { *(.debug_str_offsets) }
    .debug_addr 0 : { *(.debug_addr) }
    .debug_frame 0 : { *(.debug_frame) }
    .debug_loc 0 : { *(.debug_loc) }
    .debug_loclists 0 : { *(.debug_loclists) }
    .debug_ranges 0 : { *(.debug_ranges) }
    .debug_rnglists 0 : { *(.debug_rnglists) }
}
