/* The board mps2-an505 of qemu: 16 MB of memory whose addresses have their upper bit set. */
MEMORY { flash (rx) : ORIGIN = 0x10000000, LENGTH = 4M ram (rwx) : ORIGIN = 0x80000000, LENGTH = 16M }
INCLUDE sections.ld
