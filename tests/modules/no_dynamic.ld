/* A linker script that forgets the PT_DYNAMIC header. */
PHDRS { all PT_LOAD; }
SECTIONS {
    .text : { *(.text) } :all
    .data : { *(.data) } :all
    .dynamic : { *(.dynamic) } :all
}
