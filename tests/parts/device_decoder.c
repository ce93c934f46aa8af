/* The session of a proved device, as decoder.h has it: payloads come by unicast, and what it sends is passed over. */
#include "decoder.h"
#include "fuota.h"

#include <string.h>

static fuota_device device = FUOTA_DEVICE_NONE;
static fuota_config config;
static fuota_uplink up;
static uint8_t saved[FUOTA_SAVED_DEVICE];

static fuota_result deliver(const uint8_t *payload, uint8_t length, uint32_t mark) {
    fuota_arrival arrival = {0};
    fuota_result answer;
    arrival.t = 1000;
    arrival.mark = mark;
    answer = fuota_device_deliver(&device, 201, payload, length, &arrival);
    while (fuota_device_take_uplink(&device, &up) == FUOTA_DONE)
        continue;
    return answer;
}

bool decoder_begin(void) {
    config.hw = 1;
    config.area = PIECES * SIZE;
    config.rows = ROWS;
    config.formats = 2;
    config.sessions = config.groups = 1;
    config.is_class_c = true;
    return fuota_device_new(&device, FUOTA_SIZE_SMALL, &config) == FUOTA_DONE;
}

/* (it ends as one that was made of its own saved bytes) */
void decoder_end(void) {
    fuota_device_save(&device, saved, sizeof saved);
    fuota_device_restore(&device, FUOTA_SIZE_SMALL, &config, saved, sizeof saved, saved, 0, saved, 0);
    fuota_device_free(&device);
}

bool decoder_set_up(uint16_t pieces, uint8_t size, uint8_t padding) {
    static const uint8_t gone[2] = {3, 0};
    uint8_t setup[11] = {2};
    fuota_view view;
    deliver(gone, sizeof gone, 0);
    setup[2] = (uint8_t)pieces;
    setup[3] = (uint8_t)(pieces >> 8);
    setup[4] = size;
    setup[6] = padding;
    return deliver(setup, sizeof setup, 0) == FUOTA_DONE && fuota_device_view(&device, 0, &view) == FUOTA_DONE;
}

void decoder_hear(const uint8_t *payload, uint8_t length, uint32_t mark) { deliver(payload, length, mark); }

void decoder_show(shown *out) {
    fuota_view view = {0};
    fuota_device_view(&device, 0, &view);
    out->received = view.received;
    out->missing = view.missing;
    out->verdict = view.verdict;
    out->mark = (uint32_t)view.mark;
}

uint32_t decoder_file(uint32_t offset, uint8_t *into, uint32_t room) {
    return (uint32_t)fuota_device_file(&device, 0, offset, into, room);
}
