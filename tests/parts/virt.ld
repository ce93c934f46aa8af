/* The board virt of qemu, for a count of flash and memory. */
MEMORY { flash (rx) : ORIGIN = 0x80000000, LENGTH = 4M ram (rwx) : ORIGIN = 0x80400000, LENGTH = 16M }
INCLUDE sections.ld
