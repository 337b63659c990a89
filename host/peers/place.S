/*
 * Moves the library, which is linked behind this file, PLACE bytes on from a
 * multiple of 64.
 */
    .text
    .p2align 6
    .skip PLACE, 0x90
    .section .note.GNU-stack, "", @progbits
