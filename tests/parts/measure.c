/* What a decoder takes of a processor that qemu plays with -icount: instructions of a fragment, stack, and memory
 * of the area heap. A file of 256 pieces of 48 bytes, of which 12 are lost and coded fragments make them good. The
 * last of those, which completes the file, is told by itself. */
#include "decoder.h"
#include "sender.h"

#include <stdio.h>

#ifdef HAS_HEAP
#include "heap.h"
#endif

enum { LOST = 12, DEPTH = 32768, PAINT = 0xA5, MARGIN = 64 };

/* ---- Instructions: with -icount shift=N each takes 2^N ns. A Cortex-M has a clock of 24 bits that counts down,
 * whose ticks PER_1000 instructions take; what a RISC-V counts are these ns in qemu. */

#ifdef __arm__
#define CONTROL (*(volatile uint32_t *)0xE000E010)
#define RELOAD (*(volatile uint32_t *)0xE000E014)
#define CLOCK (*(volatile uint32_t *)0xE000E018)

static void clock_begin(void) {
    RELOAD = 0xFFFFFF;
    CONTROL = 5;
    CLOCK = 0;
}

static uint32_t clock_now(void) { return 0xFFFFFF - CLOCK; }

static uint32_t instructions(uint32_t ticks) { return (uint32_t)((uint64_t)(ticks & 0xFFFFFF) * 1000 / PER_1000); }
#else
static void clock_begin(void) {}

static uint32_t clock_now(void) {
    uint32_t now;
    __asm__ volatile(".option push\n.option arch, +zicsr\ncsrr %0, minstret\n.option pop" : "=r"(now));
    return now;
}

static uint32_t instructions(uint32_t ticks) { return ticks >> 10; }
#endif

/* ---- Stack: what a call writes of what was painted below */

static uint32_t deepest;

static uint8_t *stack_pointer(void) {
    uint8_t *at;
#ifdef __arm__
    __asm__ volatile("mov %0, sp" : "=r"(at));
#else
    __asm__ volatile("mv %0, sp" : "=r"(at));
#endif
    return at;
}

/* The instructions of a call; it has its deepest stack noted. */
static __attribute__((noinline)) uint32_t made(void (*call)(void)) {
    uint8_t *top = stack_pointer();
    volatile uint8_t *at;
    uint32_t begun, ended;
    for (at = top - DEPTH; at < top - MARGIN; at++)
        *at = PAINT;
    begun = clock_now();
    call();
    ended = clock_now();
    for (at = top - DEPTH; *at == PAINT;)
        at++;
    if ((uint32_t)(top - at) > deepest)
        deepest = (uint32_t)(top - at);
    return instructions(ended - begun);
}

/* ---- The session */

static uint8_t file[PIECES * SIZE], payload[3 + SIZE];
static unsigned mark;
static bool is_begun, is_set_up;
static shown it;

static void nothing(void) {}
static void begin(void) { is_begun = decoder_begin(); }
static void set_up(void) { is_set_up = decoder_set_up(PIECES, SIZE, 0); }
static void hear(void) { decoder_hear(payload, sizeof payload, mark); }
static void look(void) {
    static uint8_t part[64];
    decoder_show(&it);
    decoder_file(0, part, sizeof part);
}

static uint32_t heard(unsigned n) {
    fragment(file, n, PIECES, SIZE, payload);
    mark++;
    return made(hear);
}

int main(void) {
    uint32_t nothing_takes, uncoded = 0, coded = 0, last = 0;
    unsigned n, lost = 0, count = 0;
    draw_from(1);
    for (n = 0; n < sizeof file; n++)
        file[n] = (uint8_t)draw(256);
    clock_begin();
    nothing_takes = made(nothing);
    made(begin);
    printf("stack of begin %u\n", (unsigned)deepest);
    made(set_up);
    if (!is_begun || !is_set_up)
        return 1;
    deepest = 0;
    for (n = 1; n <= PIECES; n++)
        if (n % 21 == 3 && lost < LOST)
            lost++;
        else
            uncoded += heard(n) - nothing_takes;
    for (; it.verdict == RECEIVING; n++, count++) {
        coded += last;
        last = heard(n) - nothing_takes;
        made(look);
    }
    printf("stack of hear %u\n", (unsigned)deepest);
    printf("uncoded %u\n", (unsigned)(uncoded / (PIECES - LOST)));
    printf("coded %u\nlast %u\n", (unsigned)(coded / (count - 1)), (unsigned)last);
#ifdef HAS_HEAP
    printf("heap %u\n", (unsigned)fuota_heap_most());
#endif
    deepest = 0;
    made(decoder_end);
    printf("stack of end %u\n", (unsigned)deepest);
    return it.verdict == COMPLETE ? 0 : 2;
}
