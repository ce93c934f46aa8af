/* The boards mps2-an385 and -an386 of qemu: code from 0, and 16 MB of memory. */
MEMORY { flash (rx) : ORIGIN = 0, LENGTH = 4M ram (rwx) : ORIGIN = 0x21000000, LENGTH = 16M }
INCLUDE sections.ld
