/* What the library asks of a heap, on processors for which the toolchain has none of its own. heap.c, in
 * libfuota.a, has it over malloc, realloc and free. Who links three functions of his own before libfuota.a, as
 * those of area_heap.c, needs none of these. */
#ifndef FUOTA_HEAP_H
#define FUOTA_HEAP_H

#include <stddef.h>
#include <stdint.h>

/* A block of `size` bytes, at least 1 and below 2^31, at a multiple of 8; NULL where there is none. */
void *fuota_heap_take(size_t size);

/* The block `at` with another size, where it stands or elsewhere, with as many of its bytes as both sizes have;
 * NULL where there is none, and then `at` is as it was. */
void *fuota_heap_resize(void *at, size_t size);

/* Gives back a block, or NULL, which is none. */
void fuota_heap_give(void *at);

/* Of area_heap.c alone: the bytes that are taken, with 8 for each block, and the most that were at a time. */
uint32_t fuota_heap_used(void);
uint32_t fuota_heap_most(void);

#endif
