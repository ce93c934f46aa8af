/* What the proved code calls for memory, over heap.h, on processors of 64 bits: the pair that a call answers,
 * whether there was memory and where it lies, comes in two registers there. For 32 bits tools/cross/narrow.py
 * writes the same. */
#include "heap.h"

typedef struct taken {
    size_t told;
    void *at;
} taken;

taken rattle_alloc(size_t size, size_t align);
taken rattle_realloc(void *old, size_t had, size_t size, size_t align);
void rattle_dealloc(void *at);

/* (where there was none the address is one that is no null pointer) */
static taken told(void *at) {
    static char none;
    taken it = {at != NULL, at ? at : &none};
    return it;
}

/* (a block of no bytes has `align`) */
taken rattle_alloc(size_t size, size_t align) { return told(fuota_heap_take(size ? size : align)); }

taken rattle_realloc(void *old, size_t had, size_t size, size_t align) {
    (void)had;
    return told(fuota_heap_resize(old, size ? size : align));
}

void rattle_dealloc(void *at) { fuota_heap_give(at); }
