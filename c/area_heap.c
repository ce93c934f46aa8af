/* A heap for the library in one area of FUOTA_HEAP_BYTES, for parts without malloc, or where the library is to take
 * nothing of theirs: compile it with -DFUOTA_HEAP_BYTES=16384, say, and link it before libfuota.a. In WebAssembly the area
 * is all memory behind what the linker places, which is made longer where it is full.
 *
 * Blocks stand at multiples of 8, each behind 8 bytes of its own. The first free one that is long enough is taken; a
 * block that is given back becomes one with its free neighbours, so once all are given back the area is whole again.
 * Where no free block is long enough the call of the library answers FUOTA_NO_MEMORY; after that, too, all that was
 * taken can be given back. Each call walks the free blocks, which are few: the library takes memory only where its
 * header says so.
 *
 * One call at a time: who calls the library from several threads, or interrupts, locks around each call, as its
 * header says. */
#include "heap.h"

#include <stdint.h>
#include <string.h>

#define UNIT 8
#define NONE UINT32_MAX

/* A unit of the area. Before each block stands a head: the units of both, and of a free one the unit of the next
 * free head. */
typedef union unit {
    struct {
        uint32_t units, next;
    } head;
    uint64_t aligned;
} unit;

#ifdef __wasm__
#define PAGE 65536
#define UNITS ((uint32_t)(__builtin_wasm_memory_size(0) * PAGE - (size_t)area) / UNIT)
#define LONGEST 0x7FFFFFFF
extern unit area[] __asm__("__heap_base");
#else
#ifndef FUOTA_HEAP_BYTES
#error "FUOTA_HEAP_BYTES is the number of bytes of the area"
#endif
#define UNITS (FUOTA_HEAP_BYTES / UNIT)
#define LONGEST FUOTA_HEAP_BYTES
static unit area[UNITS];
#endif

static uint32_t first; /* the first free head, in the order in which they stand; NONE where there is none */
static uint32_t used, most;

uint32_t fuota_heap_used(void) { return used * UNIT; }

uint32_t fuota_heap_most(void) { return most * UNIT; }

/* The free head whose successor is `it`; NONE where that is the first. */
static uint32_t before(uint32_t it) {
    uint32_t at, last = NONE;
    for (at = first; at < it; at = area[at].head.next)
        last = at;
    return last;
}

/* `it` is what comes after a free head, or the first where that is NONE. */
static void link(uint32_t last, uint32_t it) {
    if (last == NONE)
        first = it;
    else
        area[last].head.next = it;
}

/* Makes a free block one with the next free one, where that begins at its end. */
static void join(uint32_t it) {
    uint32_t next = area[it].head.next;
    if (next != it + area[it].head.units)
        return;
    area[it].head.units += area[next].head.units;
    area[it].head.next = area[next].head.next;
}

/* Makes the area longer by so many units at least, where it can be. */
static int grow(uint32_t units) {
#ifdef __wasm__
    uint32_t pages = (units + PAGE / UNIT - 1) / (PAGE / UNIT), it = UNITS, last = before(it);
    if (__builtin_wasm_memory_grow(0, pages) == (size_t)-1)
        return 0;
    area[it].head.units = pages * (PAGE / UNIT);
    area[it].head.next = NONE;
    link(last, it);
    if (last != NONE)
        join(last);
    return 1;
#else
    (void)units;
    return 0;
#endif
}

/* The first free block of so many units at least; NONE where there is none. */
static uint32_t found(uint32_t units) {
    uint32_t it;
    for (it = first; it != NONE && area[it].head.units < units;)
        it = area[it].head.next;
    return it;
}

void *fuota_heap_take(size_t size) {
    uint32_t it, units;
    if (size > LONGEST)
        return NULL;
    if (area[0].head.units == 0) { /* no block was ever taken */
        area[0].head.units = UNITS;
        area[0].head.next = NONE;
    }
    units = (uint32_t)((size + UNIT - 1) / UNIT) + 1;
    it = found(units);
    if (it == NONE && grow(units))
        it = found(units);
    if (it == NONE)
        return NULL;
    if (area[it].head.units > units) { /* what is left is free, of one unit too, which waits for its neighbours */
        uint32_t rest = it + units;
        area[rest].head.units = area[it].head.units - units;
        area[rest].head.next = area[it].head.next;
        link(before(it), rest);
        area[it].head.units = units;
    } else {
        link(before(it), area[it].head.next);
    }
    used += units;
    if (used > most)
        most = used;
    return &area[it + 1];
}

void fuota_heap_give(void *at) {
    uint32_t it, last;
    if (!at)
        return;
    it = (uint32_t)((unit *)at - area) - 1;
    used -= area[it].head.units;
    last = before(it);
    area[it].head.next = last == NONE ? first : area[last].head.next;
    link(last, it);
    join(it);
    if (last != NONE)
        join(last);
}

void *fuota_heap_resize(void *at, size_t size) {
    size_t had = at ? (((unit *)at - 1)->head.units - 1) * (size_t)UNIT : 0;
    void *to;
    if (at && size <= had)
        return at;
    to = fuota_heap_take(size);
    if (to && at) {
        memcpy(to, at, had);
        fuota_heap_give(at);
    }
    return to;
}
