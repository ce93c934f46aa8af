#include "sender.h"

#include <string.h>

static uint64_t state;

void draw_from(uint64_t seed) { state = seed; }

uint32_t draw(uint32_t below) {
    state = state * 6364136223846793005u + 1442695040888963407u;
    return (uint32_t)((state >> 33) % below);
}

static void put_line(unsigned n, unsigned pieces, uint8_t *line) {
    uint32_t x = 1 + 1001 * n, modulus = pieces + ((pieces & (pieces - 1)) == 0), count;
    memset(line, 0, pieces);
    for (count = 0; count < pieces / 2; count++) {
        uint32_t r;
        do {
            x = (x >> 1) | ((((x >> 5) ^ x) & 1) << 22);
            r = x % modulus;
        } while (r >= pieces);
        line[r] = 1;
    }
}

void fragment(const uint8_t *file, unsigned n, unsigned pieces, unsigned size, uint8_t *payload) {
    uint8_t line[4096];
    unsigned i, j;
    payload[0] = 0x08;
    payload[1] = (uint8_t)n;
    payload[2] = (uint8_t)(n >> 8);
    memset(payload + 3, 0, size);
    if (n <= pieces) {
        memcpy(payload + 3, file + (n - 1) * size, size);
        return;
    }
    put_line(n - pieces, pieces, line);
    for (i = 0; i < pieces; i++)
        for (j = 0; line[i] && j < size; j++)
            payload[3 + j] ^= file[i * size + j];
}

uint32_t summed(uint32_t sum, const void *bytes, uint64_t count) {
    const uint8_t *at = bytes;
    while (count--)
        sum = (sum ^ *at++) * 16777619u;
    return sum;
}
