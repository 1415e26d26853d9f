/* Merges functions, each in a section of its own, into one section, where each begins at a multiple of 64 bytes. */
SECTIONS { .text : SUBALIGN(64) { *(.text .text.*) } }
