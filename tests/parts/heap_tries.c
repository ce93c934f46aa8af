/* Random blocks of c/area_heap.c, each filled and looked at again. Prints what came to pass; the status is 0 where
 * each block held what was put into it, none stood at another place than a multiple of 8, and the area was whole
 * again at the end. */
#include "heap.h"
#include "sender.h"

#include <stdio.h>
#include <stdlib.h>

enum { BLOCKS = 64 };

static struct {
    uint8_t *at, seed;
    size_t size;
} blocks[BLOCKS];
static unsigned refused, moved;

static void fill(unsigned k, uint8_t *at, size_t size) {
    size_t i;
    blocks[k].at = at;
    blocks[k].size = size;
    blocks[k].seed = (uint8_t)draw(256);
    for (i = 0; i < size; i++)
        at[i] = (uint8_t)(blocks[k].seed + i * 7);
}

static int holds(unsigned k, size_t size) {
    size_t i;
    for (i = 0; i < size && i < blocks[k].size; i++)
        if (blocks[k].at[i] != (uint8_t)(blocks[k].seed + i * 7))
            return 0;
    return 1;
}

static int take(unsigned k) {
    size_t size = 1 + draw(draw(8) ? 200 : 6000);
    uint8_t *at = fuota_heap_take(size);
    if (!at)
        return ++refused > 0;
    fill(k, at, size);
    return (uintptr_t)at % 8 == 0;
}

static int resize(unsigned k) {
    size_t size = 1 + draw(400);
    uint8_t *at = fuota_heap_resize(blocks[k].at, size);
    if (!at)
        return ++refused > 0 && holds(k, blocks[k].size);
    moved += at != blocks[k].at;
    blocks[k].at = at;
    if (!holds(k, size))
        return 0;
    fill(k, at, size);
    return (uintptr_t)at % 8 == 0;
}

static int give(unsigned k) {
    fuota_heap_give(blocks[k].at);
    blocks[k].at = NULL;
    return 1;
}

int main(int argc, char **argv) {
    unsigned rounds = argc > 1 ? (unsigned)atoi(argv[1]) : 300000, k;
    draw_from(1);
    while (rounds--) {
        k = draw(BLOCKS);
        if (blocks[k].at ? !holds(k, blocks[k].size) || !(draw(4) ? give(k) : resize(k)) : !take(k))
            return 1;
    }
    for (k = 0; k < BLOCKS; k++)
        give(k);
    printf("%u refused, %u moved, at most %u bytes, whole again %d\n", refused, moved, (unsigned)fuota_heap_most(),
           fuota_heap_used() == 0 && fuota_heap_take(FUOTA_HEAP_BYTES - 8) != NULL);
    return fuota_heap_used() != FUOTA_HEAP_BYTES;
}
