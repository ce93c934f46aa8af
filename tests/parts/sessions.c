/* Random sessions of a decoder: a line for each, with what it came to, and a sum of the file. The first argument
 * is their number. Any build of the proved receiver prints the same, and so does the decoder in plain C. */
#include "decoder.h"
#include "sender.h"

#include <stdio.h>
#include <stdlib.h>

static uint8_t file[PIECES * SIZE];

/* A session that loses a share of its fragments, hears some again, early or late, and now and then a changed one. */
static void play(unsigned number) {
    unsigned pieces, size, padding, loss, i, n, mark = 0;
    uint8_t payload[3 + SIZE], part[64];
    uint32_t sum = SUM_OF_NONE, length = 0, got;
    bool is_wrong;
    shown it = {0};
    draw_from(number * 77777u + 1);
    pieces = 1 + draw(PIECES);
    size = 1 + draw(SIZE);
    padding = draw(size);
    loss = draw(8);
    is_wrong = draw(10) == 0;
    for (i = 0; i < pieces * size; i++)
        file[i] = i < pieces * size - padding ? (uint8_t)draw(256) : 0;
    if (!decoder_set_up((uint16_t)pieces, (uint8_t)size, (uint8_t)padding)) {
        printf("%u refused\n", number);
        return;
    }
    for (n = 1; n <= pieces + 40 && it.verdict == RECEIVING; n++) {
        unsigned k = n;
        if (draw(100) < loss)
            continue;
        if (draw(8) == 0)
            k = 1 + draw(pieces + 40);
        fragment(file, k, pieces, size, payload);
        if (is_wrong && draw(40) == 0)
            payload[3 + draw(size)] ^= 1;
        decoder_hear(payload, (uint8_t)(3 + size), ++mark);
        decoder_show(&it);
    }
    for (; (got = decoder_file(length, part, sizeof part)) > 0; length += got)
        sum = summed(sum, part, got);
    printf("%u: %u pieces of %u, received %u missing %u ", number, pieces, size, (unsigned)it.received, (unsigned)it.missing);
    printf("verdict %u mark %u length %u sum %08x\n", (unsigned)it.verdict, (unsigned)it.mark, (unsigned)length, (unsigned)sum);
}

int main(int argc, char **argv) {
    unsigned count = argc > 1 ? (unsigned)atoi(argv[1]) : 300, number;
    if (!decoder_begin())
        return 1;
    for (number = 0; number < count; number++)
        play(number);
    decoder_end();
    return 0;
}
