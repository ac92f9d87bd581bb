/* The pages that calls are counted on (make ports-count); the assembler is called at the repository's root. */
    .section .rodata
    .globl pages
    .balign 4
pages:
    .incbin "target/ports-count/pages"
    .section .note.GNU-stack, "", %progbits
