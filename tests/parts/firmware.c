/* The least firmware around a decoder: payloads from a radio that is not here, and the file to a flash that isn't
 * either. For a count of flash and RAM. */
#include "decoder.h"

extern uint32_t __stack[];
volatile uint8_t radio[64], flash[64];

static uint8_t receive(uint8_t *payload) {
    uint8_t i, count = radio[0];
    for (i = 0; i < count; i++)
        payload[i] = radio[i + 1];
    return count;
}

static void keep(void) {
    static uint8_t part[64];
    uint32_t at, i, count;
    for (at = 0; (count = decoder_file(at, part, sizeof part)) > 0; at += count)
        for (i = 0; i < count; i++)
            flash[i] = part[i];
}

void reset(void) {
    static uint8_t payload[64];
    uint8_t count;
    uint32_t mark = 0;
    shown it;
    if (!decoder_begin() || !decoder_set_up(PIECES, SIZE, 0))
        return;
    while ((count = receive(payload)) != 0) {
        decoder_hear(payload, count, ++mark);
        decoder_show(&it);
        if (it.verdict == COMPLETE)
            keep();
    }
    decoder_end();
}

__attribute__((section(".vectors"), used)) static const uintptr_t vectors[2] = {(uintptr_t)__stack, (uintptr_t)reset};
