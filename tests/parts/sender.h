/* The fragments of a file, as TS004 defines them, and random numbers that are the same everywhere. */
#ifndef SENDER_H
#define SENDER_H

#include <stdint.h>

/* Begins the random numbers of a case anew. */
void draw_from(uint64_t seed);

/* A number below one. */
uint32_t draw(uint32_t below);

/* The payload of fragment n, from 1, of a file of so many pieces. */
void fragment(const uint8_t *file, unsigned n, unsigned pieces, unsigned size, uint8_t *payload);

/* A sum of bytes, over the sum of those before; SUM_OF_NONE at first. */
#define SUM_OF_NONE 2166136261u
uint32_t summed(uint32_t sum, const void *bytes, uint64_t count);

#endif
