/* Random devices: payloads of all ports, mostly commands that are known, with saves, restores and texts between
 * them. A line for each device, with what it answered and a sum of all that it told. The first argument is their
 * number. Any build of the library prints the same. */
#include "fuota.h"
#include "sender.h"

#include <stdio.h>
#include <stdlib.h>
#include <string.h>

enum { STEPS = 300, ANSWERS = 16, AREA = 3000 };

static fuota_device device = FUOTA_DEVICE_NONE;
static fuota_config config;
static uint8_t sessions; /* their size */
static uint8_t payload[250], text[20000], saved[FUOTA_SAVED_DEVICE], running[AREA], next[AREA], file[AREA];
static uint32_t sum;
static unsigned uplinks, answered[ANSWERS];

/* Commands to a device that begin a payload: port, identifier, and length of the payload. */
static const uint8_t KNOWN[][3] = {
    {200, 0, 1}, {200, 1, 2}, {200, 2, 30}, {200, 3, 2}, {200, 4, 11}, {200, 5, 13},
    {201, 0, 1}, {201, 1, 2}, {201, 2, 11}, {201, 3, 2}, {201, 8, 0},
    {202, 0, 1}, {202, 1, 6}, {202, 2, 2}, {202, 3, 2},
    {203, 0, 1}, {203, 1, 1}, {203, 2, 5}, {203, 3, 5}, {203, 4, 1}, {203, 5, 5}};
enum { COMMANDS = sizeof KNOWN / sizeof KNOWN[0], SETUP = 8, FRAGMENT = 10 };

static void tell(const void *bytes, uint64_t count) { sum = summed(sum, bytes, count); }

static void tell_number(uint64_t number) {
    unsigned k;
    for (k = 0; k < 8; k++) {
        uint8_t byte = (uint8_t)(number >> 8 * k);
        tell(&byte, 1);
    }
}

static void draw_config(void) {
    unsigned k;
    memset(&config, 0, sizeof config);
    sessions = (uint8_t)draw(3);
    config.hw = draw(3);
    config.offset = draw(1000);
    config.area = 1 + draw(AREA);
    config.rows = (uint16_t)draw(17);
    config.formats = (uint8_t)(1 + draw(2));
    config.sessions = (uint8_t)(1 + draw(4));
    config.groups = (uint8_t)(1 + draw(4));
    config.is_class_c = draw(4) != 0;
    config.is_v11 = draw(2) != 0;
    for (k = 0; k < sizeof config.key; k++)
        config.key[k] = (uint8_t)draw(256);
}

/* A session of few small pieces, mostly with padding that fits. */
static unsigned draw_setup(void) {
    unsigned size = 1 + draw(40);
    payload[1] = (uint8_t)(draw(4) << 4 | draw(16));
    payload[2] = (uint8_t)(1 + draw(30));
    payload[3] = 0;
    payload[4] = (uint8_t)size;
    payload[5] = (uint8_t)(draw(5) ? 0 : draw(256));
    payload[6] = (uint8_t)draw(size);
    return size;
}

/* Draws a payload, and gives its length. */
static fuota_length draw_payload(uint8_t *port) {
    static unsigned size = 1;
    const uint8_t *one = KNOWN[draw(3) ? draw(COMMANDS) : FRAGMENT - draw(3)];
    fuota_length length = one[2];
    unsigned k;
    for (k = 0; k < sizeof payload; k++)
        payload[k] = (uint8_t)draw(256);
    *port = one[0];
    payload[0] = one[1];
    if (one == KNOWN[SETUP])
        size = draw_setup();
    if (one == KNOWN[FRAGMENT]) {
        length = 3 + (draw(8) ? size : draw(60));
        payload[1] = (uint8_t)(1 + draw(40));
        payload[2] = (uint8_t)(draw(4) << 6);
    }
    if (draw(10) == 0)
        length = draw(243);
    if (draw(20) == 0)
        *port = (uint8_t)(198 + draw(8));
    return length;
}

static void tell_text(uint8_t port, bool up, const uint8_t *bytes, fuota_length length) {
    fuota_decoded decoded = {0};
    uint8_t answer = fuota_decode(port, up, bytes, length, text, sizeof text, &decoded);
    tell(&answer, 1);
    tell_number(decoded.length + decoded.at * 65536u + decoded.why);
    if (answer == FUOTA_DONE)
        tell(text, decoded.length);
}

static void bring(fuota_length length, uint8_t port, uint64_t t, unsigned step) {
    fuota_arrival arrival = {0};
    uint8_t answer;
    arrival.t = t;
    arrival.mark = step;
    arrival.word = draw(1000000);
    arrival.is_group = draw(6) == 0;
    arrival.addr = draw(3);
    arrival.count = draw(100);
    answer = draw(12) ? fuota_device_deliver(&device, port, payload, length, &arrival)
                      : fuota_device_radio(&device, payload, length, t, arrival.word, step);
    tell(&answer, 1);
    answered[answer % ANSWERS]++;
}

static void tell_uplinks(void) {
    fuota_uplink up = {0};
    while (fuota_device_take_uplink(&device, &up) == FUOTA_DONE) {
        uplinks++;
        tell_number(up.due);
        tell(&up.port, 1);
        tell(up.payload, up.length);
        tell_text(up.port, true, up.payload, up.length);
    }
}

static void tell_sessions(void) {
    uint8_t k;
    for (k = 0; k < 4; k++) {
        fuota_view view = {0};
        fuota_device_view(&device, k, &view);
        tell_number(view.mark);
        tell_number(view.file_length);
        tell_number(view.received + view.missing * 65536u + view.verdict * 0x100000000u);
        if (view.verdict == FUOTA_COMPLETE)
            tell(file, fuota_device_file(&device, k, 0, file, sizeof file));
    }
}

/* The device goes on as one that was made of its own saved bytes. */
static bool restart(void) {
    fuota_length runs = fuota_device_firmware(&device, false, 0, running, sizeof running);
    fuota_length waits = fuota_device_firmware(&device, true, 0, next, sizeof next);
    tell(saved, fuota_device_save(&device, saved, sizeof saved));
    return fuota_device_restore(&device, sessions, &config, saved, sizeof saved, running, runs, next, waits) == FUOTA_DONE;
}

static bool play(unsigned number) {
    unsigned step;
    uint64_t t = 0;
    draw_from(number * 99991u + 7);
    sum = SUM_OF_NONE;
    uplinks = 0;
    memset(answered, 0, sizeof answered);
    draw_config();
    if (fuota_device_new(&device, sessions, &config) != FUOTA_DONE)
        return false;
    for (step = 0; step < STEPS; step++) {
        uint8_t port;
        fuota_length length = draw_payload(&port);
        t += draw(3000);
        bring(length, port, t, step);
        if (draw(9) == 0)
            fuota_device_wake(&device, t);
        tell_uplinks();
        tell_text(port, false, payload, length);
        tell_sessions();
        if (draw(40) == 0 && !restart())
            return false;
    }
    printf("%u: uplinks %u done %u deaf %u refused %u full %u foreign %u sum %08x\n", number, uplinks, answered[FUOTA_DONE],
           answered[FUOTA_DEAF], answered[FUOTA_REFUSED], answered[FUOTA_FULL], answered[FUOTA_FOREIGN], (unsigned)sum);
    fuota_device_free(&device);
    return true;
}

int main(int argc, char **argv) {
    unsigned count = argc > 1 ? (unsigned)atoi(argv[1]) : 50, number;
    for (number = 0; number < count; number++)
        if (!play(number))
            return 1;
    return 0;
}
