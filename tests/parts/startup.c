/* The vectors of a Cortex-M, and what runs at reset: the start of the C library. */
#include <stdint.h>

extern uint32_t __stack[];
void _start(void);
void _init(void);
void _fini(void);
void reset(void);
void stopped(void);

#define CONFIGURATION (*(volatile uint32_t *)0xE000ED14)
#define UNALIGNED_TRAPS 8u

void reset(void) {
#ifdef NO_UNALIGNED
    CONFIGURATION |= UNALIGNED_TRAPS; /* as a Cortex-M0+, which takes no word at an odd place */
#endif
    _start();
}

/* A fault ends the program with semihosting's report of one, so that it is seen. */
void stopped(void) {
    register uint32_t number __asm__("r0") = 0x18, why __asm__("r1") = 0x20023;
    __asm__ volatile("bkpt 0xAB" : "+r"(number) : "r"(why) : "memory");
    for (;;)
        continue;
}

void _init(void) {}
void _fini(void) {}

__attribute__((section(".vectors"), used)) static const uintptr_t vectors[16] = {
    (uintptr_t)__stack, (uintptr_t)reset, (uintptr_t)stopped, (uintptr_t)stopped, (uintptr_t)stopped, (uintptr_t)stopped,
    (uintptr_t)stopped};
