/* The proved receiver, as decoder.h has it. */
#include "decoder.h"
#include "fuota.h"

static fuota_receiver receiver = FUOTA_RECEIVER_NONE;

bool decoder_begin(void) { return fuota_receiver_new(&receiver, FUOTA_SIZE_SMALL) == FUOTA_DONE; }

void decoder_end(void) { fuota_receiver_free(&receiver); }

bool decoder_set_up(uint16_t pieces, uint8_t size, uint8_t padding) {
    fuota_setup setup = {0};
    static uint32_t descriptor;
    setup.descriptor = ++descriptor; /* (a setup with that of a live session is taken as its repeat) */
    setup.nb_frag = pieces;
    setup.frag_size = size;
    setup.padding = padding;
    return fuota_receiver_set_up(&receiver, &setup) == 0;
}

void decoder_hear(const uint8_t *payload, uint8_t length, uint32_t mark) {
    fuota_receiver_hear(&receiver, payload, length, mark);
}

void decoder_show(shown *out) {
    fuota_view view = {0};
    fuota_receiver_view(&receiver, &view);
    out->received = view.received;
    out->missing = view.missing;
    out->verdict = view.verdict;
    out->mark = (uint32_t)view.mark;
}

uint32_t decoder_file(uint32_t offset, uint8_t *into, uint32_t room) {
    return (uint32_t)fuota_receiver_file(&receiver, offset, into, room);
}
