/* Calls of the library for C that libFuzzer draws, over a library under AddressSanitizer (CONTRIBUTING.md says how it is built).
 * The bytes are read as a kind of object, and then as its calls. What a call reads or writes lies alone in memory, so that a byte
 * beyond it is seen. What a device or a server saves, one that is restored of it has to save again. */
#include "fuota.h"
#include <stdlib.h>
#include <string.h>

enum { SPAN = 26000, CALLS = 80, MOST = 248 };

static const uint8_t *at;
static size_t left;

static uint64_t number(int count) {
    uint64_t value = 0;
    for (; count && left; count--, left--)
        value = value << 8 | *at++;
    return value;
}

static void hold(bool fact) {
    if (!fact)
        abort();
}

typedef struct { uint8_t *at; fuota_length length; } bytes;

static bytes room(size_t length) {
    bytes made = {calloc(length ? length : 1, 1), length};
    hold(made.at);
    return made;
}

static bytes some(void) {
    size_t length = number(1);
    length = length < MOST ? length : MOST;
    bytes made = room(length < left ? length : left);
    memcpy(made.at, at, made.length);
    at += made.length, left -= made.length;
    return made;
}

/* ---- A receiver ---- */

static void receiver(void) {
    fuota_receiver it = FUOTA_RECEIVER_NONE;
    fuota_view view;
    fuota_receiver_new(&it, (uint8_t)(number(1) % 4));
    for (int calls = 0; left && calls < CALLS; calls++) {
        bytes data = some();
        fuota_setup setup = {(uint32_t)number(1), (uint16_t)number(1), (uint8_t)number(1), 0, (uint8_t)number(1), 0, 0, 0};
        switch (number(1) % 4) {
        case 0:
            fuota_receiver_set_up(&it, &setup);
            break;
        case 1:
            fuota_receiver_status(&it, number(1) % 2, data.at, data.length);
            break;
        default:
            fuota_receiver_hear(&it, data.at, data.length, (uint64_t)calls);
        }
        if (fuota_receiver_view(&it, &view) == FUOTA_DONE) {
            hold((view.verdict == FUOTA_COMPLETE) == (view.file_length > 0));
            bytes file = room(view.file_length);
            hold(fuota_receiver_file(&it, 0, file.at, file.length) == file.length);
            free(file.at);
        }
        free(data.at);
    }
    fuota_receiver_free(&it);
}

/* ---- A device ---- */

static bytes file_of(fuota_device *device, bool is_next) {
    bytes file = room(4096);
    file.length = fuota_device_firmware(device, is_next, 0, file.at, file.length);
    return file;
}

/* The device is ended, and another one goes on that is restored of what it saved, and of its flash where it has one. */
static void restart(fuota_device *device, uint8_t size, const fuota_config *config, bytes flash) {
    bytes saved = room(FUOTA_SAVED_DEVICE), again = room(FUOTA_SAVED_DEVICE);
    bytes runs = file_of(device, false), next = file_of(device, true);
    fuota_next state = {0, 0};
    uint8_t answer;
    fuota_device_next(device, &state);
    fuota_device_save(device, saved.at, saved.length);
    if (state.state == FUOTA_IMAGE_NONE)
        next.length = 0;
    if (flash.length) {
        fuota_device_flash(device, 0, flash.at, flash.length);
        answer = fuota_device_restore_in_flash(device, size, config, SPAN, flash.at, flash.length, saved.at, saved.length,
                                               runs.at, runs.length, next.at, next.length);
        hold(answer == FUOTA_DONE);
        hold(fuota_device_power(device) == FUOTA_DONE);
        fuota_device_save(device, again.at, again.length);
        hold(!memcmp(saved.at, again.at, saved.length));
    } else {
        answer = fuota_device_restore(device, size, config, saved.at, saved.length, runs.at, runs.length, next.at,
                                      next.length);
        hold(answer == FUOTA_DONE);
    }
    free(saved.at), free(again.at), free(runs.at), free(next.at);
}

static void device(bool is_in_flash) {
    fuota_device it = FUOTA_DEVICE_NONE;
    fuota_config config = {1, (uint32_t)number(1), 4096, 7, 16, (uint8_t)(1 + number(1) % 2), 4, 4, false, number(1) % 4 != 0,
                           false, {0}};
    uint8_t size = (uint8_t)(number(1) % 3);
    bytes flash = room(is_in_flash ? 4 * SPAN : 0);
    uint64_t t = 0;
    /* (bytes of a flash are drawn as a few places) */
    for (int places = is_in_flash ? (int)(number(1) % 64) : 0; places; places--) {
        size_t place = number(1) % 4 * SPAN + (size_t)(uint16_t)number(2) % SPAN;
        flash.at[place] = (uint8_t)number(1);
    }
    if (is_in_flash)
        fuota_device_new_in_flash(&it, size, &config, SPAN, flash.at, flash.length);
    else
        fuota_device_new(&it, size, &config);
    bool is_up = fuota_device_power(&it) != FUOTA_FLASH;
    for (int calls = 0; left && calls < CALLS; calls++) {
        fuota_view view;
        fuota_uplink up;
        bytes data = some();
        t += number(1) * 100;
        fuota_arrival arrival = {t, (uint64_t)calls, (uint32_t)number(1), 0x11223344, (uint32_t)number(1), number(1) % 4 == 0};
        switch (number(1) % 12) {
        case 0:
            fuota_device_radio(&it, data.at, data.length, t, 0, 0);
            break;
        case 1:
            fuota_device_wake(&it, t);
            break;
        case 2:
            fuota_device_raise(&it);
            break;
        case 3:
            if (is_up)
                restart(&it, size, &config, flash);
            break;
        case 4:
            fuota_device_restore(&it, size, &config, data.at, data.length, data.at, 0, data.at, 0);
            calls = CALLS;
            break;
        case 5:
            while (fuota_device_take_uplink(&it, &up) == FUOTA_DONE)
                hold(up.length > 0 && up.length <= 242);
            break;
        default:
            fuota_device_deliver(&it, (uint8_t)(199 + number(1) % 6), data.at, data.length, &arrival);
        }
        if (fuota_device_view(&it, (uint8_t)(calls % 5), &view) == FUOTA_DONE) {
            bytes file = room(view.file_length);
            hold(fuota_device_file(&it, (uint8_t)(calls % 5), 0, file.at, file.length) == file.length);
            free(file.at);
        }
        free(data.at);
    }
    fuota_device_free(&it);
    free(flash.at);
}

/* ---- A server ---- */

static const uint8_t IMAGE[] = {
    'F', 'U', 'I', 'M', 1, 1, 0, 0, 0, 2, 0, 0, 0, 3, 0, 0, 0, 0xba, 0x78, 0x16, 0xbf, 0x8f, 0x01, 0xcf, 0xea, 0x41, 0x41, 0x40,
    0xde, 0x5d, 0xae, 0x22, 0x23, 0xb0, 0x03, 0x61, 0xa3, 0x96, 0x17, 0x7a, 0x9c, 0xb4, 0x10, 0xff, 0x61, 0xf2, 0x00, 0x15, 0xad,
    'a', 'b', 'c'};

static void server(void) {
    fuota_server it = FUOTA_SERVER_NONE;
    fuota_plan plan = {.max = (uint32_t)number(1), .parity = (uint16_t)number(2), .frag_size = (uint8_t)number(1),
                       .periodicity = (uint8_t)number(1) % 9, .timeout = 4, .index = (uint8_t)number(1) % 5};
    fuota_plan_device devices[2] = {{{0}, false}, {{1}, true}};
    bytes saved = room(44 + 6 * 2), again = room(saved.length);
    uint8_t field;
    plan.has_group = plan.has_window = number(1) % 2;
    plan.is_class_b = number(1) % 2;
    bool is_there = fuota_server_new(&it, &plan, devices, 2, IMAGE, sizeof IMAGE, &field) == FUOTA_DONE;
    for (int calls = 0; is_there && left && calls < CALLS; calls++) {
        fuota_down down = {0};
        fuota_stage stage;
        fuota_status status;
        uint16_t next;
        uint32_t count;
        bytes data = some(), frame = room(FUOTA_MAX_FRAME);
        uint8_t dev = (uint8_t)(number(1) % 4);
        switch (number(1) % 6) {
        case 0:
            fuota_server_ask(&it, dev, &down);
            break;
        case 1:
            fuota_server_next_fragment(&it, &down);
            break;
        case 2:
            fuota_server_status_all(&it, &down);
            break;
        case 3:
            hold(fuota_server_save(&it, saved.at, saved.length) == saved.length);
            hold(fuota_server_restore(&it, &plan, devices, 2, IMAGE, sizeof IMAGE, saved.at, saved.length, &field) == FUOTA_DONE);
            hold(fuota_server_save(&it, again.at, again.length) == again.length);
            hold(!memcmp(saved.at, again.at, saved.length));
            break;
        default:
            fuota_server_uplink(&it, dev, (uint8_t)(199 + number(1) % 6), data.at, data.length, number(4), &down);
        }
        fuota_server_frame(&it, &down, frame.at, frame.length);
        fuota_server_ledger(&it, dev, &stage);
        fuota_server_last_status(&it, dev, &status);
        hold(fuota_server_fragment_number(&it, &next) == FUOTA_DONE && next >= 1);
        hold(fuota_server_frame_count(&it, &count) == FUOTA_DONE && count <= plan.max);
        free(data.at), free(frame.at);
    }
    fuota_server_free(&it);
    free(saved.at), free(again.at);
}

/* ---- A text ---- */

static void text(void) {
    uint8_t port = (uint8_t)(199 + number(1) % 6);
    bool is_up = number(1) % 2;
    bytes data = some(), into = room(number(2));
    fuota_decoded told = {0};
    if (fuota_decode(port, is_up, data.at, data.length, into.at, into.length, &told) == FUOTA_NO_ROOM)
        hold(told.length > into.length);
    free(data.at), free(into.at);
}

int LLVMFuzzerTestOneInput(const uint8_t *data, size_t size) {
    at = data, left = size;
    switch (number(1) % 8) {
    case 0:
        text();
        break;
    case 1:
    case 2:
        receiver();
        break;
    case 3:
        server();
        break;
    case 4:
    case 5:
        device(true);
        break;
    default:
        device(false);
    }
    return 0;
}
