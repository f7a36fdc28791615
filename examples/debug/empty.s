# Sections of a link without bytes of their own: behind the text, the data and thread-local storage, at their alignments, and two
# that are empty as a whole.
        .text
        .p2align 6
        .data
        .p2align 6
        .bss
        .p2align 6
        .section .tdata, "awT"
        .p2align 6
        .section .none, "ax"
        .p2align 12
        .section .no_data, "aw"
        .p2align 12
        .comm   no_block, 0, 64
        .section .note.GNU-stack, ""
