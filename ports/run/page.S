/* The sample page's bytes; the assembler is called at the repository's root. */
    .section .rodata
    .globl sample_page, sample_page_end
    .balign 4
    .byte 0
sample_page:
    .incbin "crates/demo/stdin"
sample_page_end:
    .section .note.GNU-stack, "", %progbits
