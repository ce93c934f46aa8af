/* Each call with and without an object, at the edges of its arguments, and what it then writes and leaves: nothing is
 * printed but the first line that is not so. */
#include "fuota.h"
#include <stdio.h>
#include <string.h>

#define SO(fact)                                            \
    do {                                                    \
        if (!(fact)) {                                      \
            printf("answers.c:%d: %s\n", __LINE__, #fact);  \
            return 1;                                       \
        }                                                   \
    } while (0)

static const uint8_t FILE_BYTES[5] = {0x11, 0x22, 0x33, 0x44, 0x55};
static uint8_t zeros[300];
static const fuota_plan_device devices[2];

static int without_objects(void) {
    fuota_receiver receiver = FUOTA_RECEIVER_NONE;
    fuota_device device = FUOTA_DEVICE_NONE;
    fuota_server server = FUOTA_SERVER_NONE;
    fuota_setup setup = {0};
    fuota_arrival arrival = {0};
    fuota_view view = {.mark = 9};
    fuota_uplink up = {.due = 9};
    fuota_down down = {.addr = 9};
    fuota_stage stage = {.bits = 9};
    fuota_counts counts = {.deaf = 9};
    fuota_next next = {.version = 9};
    uint32_t version = 9, count = 9;
    uint16_t number = 9;
    uint8_t bytes[8] = {0xEE};
    SO(fuota_version() == FUOTA_VERSION_MAJOR * 65536 + FUOTA_VERSION_MINOR * 256 + FUOTA_VERSION_PATCH);
    SO(fuota_pointer_bits() == 8 * sizeof(void *));
    SO(fuota_receiver_set_up(&receiver, &setup) == FUOTA_NO_RECEIVER);
    SO(fuota_receiver_hear(&receiver, zeros, 5, 1) == FUOTA_NO_OBJECT);
    SO(fuota_receiver_view(&receiver, &view) == FUOTA_NO_OBJECT && view.mark == 9);
    SO(fuota_receiver_file(&receiver, 0, bytes, 8) == 0 && bytes[0] == 0xEE);
    SO(fuota_receiver_status(&receiver, true, bytes, 8) == 0 && bytes[0] == 0xEE);
    SO(fuota_device_deliver(&device, 201, zeros, 0, &arrival) == FUOTA_NO_OBJECT);
    SO(fuota_device_radio(&device, zeros, 20, 0, 0, 0) == FUOTA_NO_OBJECT);
    SO(fuota_device_counts(&device, &counts) == FUOTA_NO_OBJECT && counts.deaf == 9);
    SO(fuota_device_next(&device, &next) == FUOTA_NO_OBJECT && next.version == 9);
    SO(fuota_device_raise(&device) == FUOTA_NO_OBJECT);
    SO(fuota_device_wake(&device, 0) == FUOTA_NO_OBJECT);
    SO(fuota_device_take_uplink(&device, &up) == FUOTA_NO_OBJECT && up.due == 9);
    SO(fuota_device_view(&device, 0, &view) == FUOTA_NO_OBJECT && view.mark == 9);
    SO(fuota_device_file(&device, 0, 0, bytes, 8) == 0 && bytes[0] == 0xEE);
    SO(fuota_device_running(&device, &version) == FUOTA_NO_OBJECT && version == 9);
    SO(fuota_server_next_fragment(&server, &down) == FUOTA_NO_OBJECT && down.addr == 9);
    SO(fuota_server_status_all(&server, &down) == FUOTA_NO_OBJECT);
    SO(fuota_server_frame(&server, &down, bytes, 8) == 0 && bytes[0] == 0xEE);
    SO(fuota_server_ask(&server, 1, &down) == FUOTA_NO_OBJECT);
    SO(fuota_server_uplink(&server, 1, 201, zeros, 1, 0, &down) == FUOTA_NO_OBJECT && down.addr == 9);
    SO(fuota_server_ledger(&server, 1, &stage) == FUOTA_NO_OBJECT && stage.bits == 9);
    SO(fuota_server_fragment_number(&server, &number) == FUOTA_NO_OBJECT && number == 9);
    SO(fuota_server_frame_count(&server, &count) == FUOTA_NO_OBJECT && count == 9);
    fuota_receiver_free(&receiver);
    fuota_device_free(&device);
    fuota_server_free(&server);
    return 0;
}

static int receiver_answers(void) {
    static const uint8_t rows[4][6] = {{0x08, 0x01, 0x00, 0x11, 0x22},
                                       {0x08, 0x03, 0x00, 0x55, 0x00},
                                       {0x08, 0x02, 0x40, 0x33, 0x44},
                                       {0x00, 0x08, 0x02, 0x00, 0x33, 0x44}};
    static const uint8_t coded[5] = {0x08, 0x04, 0x00, 0x33, 0x44};
    static const uint8_t status[5] = {0x01, 0x02, 0x00, 0x01, 0x00}; /* 2 of 3 pieces were heard, and one is missing */
    fuota_receiver receiver = FUOTA_RECEIVER_NONE;
    fuota_setup setup = {.descriptor = 7, .nb_frag = 3, .frag_size = 2, .padding = 1};
    fuota_setup other = setup;
    fuota_view view = {0};
    uint8_t bytes[8];
    int i;
    SO(fuota_receiver_new(&receiver, FUOTA_SIZE_SMALL) == FUOTA_DONE && receiver.at != 0);
    SO(fuota_receiver_view(&receiver, &view) == FUOTA_NOTHING);
    other.index = 1;
    SO(fuota_receiver_set_up(&receiver, &other) == 4);
    other = setup;
    other.nb_frag = 257;
    other.frag_size = 48;
    SO(fuota_receiver_set_up(&receiver, &other) == 2);
    SO(fuota_receiver_set_up(&receiver, &setup) == 0);
    for (i = 0; i < 4; i++) { /* of these the third is of session 1, and the fourth no fragment */
        SO(fuota_receiver_hear(&receiver, rows[i], i == 3 ? 6 : 5, (uint64_t)i) == FUOTA_DONE);
        SO(fuota_receiver_view(&receiver, &view) == FUOTA_DONE);
        SO(view.verdict == FUOTA_RECEIVING && view.file_length == 0);
    }
    SO(view.received == 2 && view.missing == 1 && view.mark == 0);
    memset(bytes, 0xEE, sizeof bytes);
    SO(fuota_receiver_status(&receiver, false, bytes, 4) == 0 && bytes[0] == 0xEE);
    SO(fuota_receiver_status(&receiver, false, bytes, 8) == 5 && !memcmp(bytes, status, 5) && bytes[5] == 0xEE);
    SO(fuota_receiver_hear(&receiver, zeros, 243, 4) == FUOTA_RANGE);
    SO(fuota_receiver_hear(&receiver, zeros, 242, 4) == FUOTA_DONE);
    SO(fuota_receiver_hear(&receiver, coded, 0, 4) == FUOTA_DONE);
    SO(fuota_receiver_hear(&receiver, coded, 5, UINT64_MAX) == FUOTA_DONE);
    SO(fuota_receiver_view(&receiver, &view) == FUOTA_DONE && view.verdict == FUOTA_COMPLETE);
    SO(view.mark == UINT64_MAX && view.file_length == 5 && view.received == 3 && view.missing == 0);
    memset(bytes, 0xEE, sizeof bytes);
    SO(fuota_receiver_file(&receiver, 0, bytes, 8) == 5 && !memcmp(bytes, FILE_BYTES, 5) && bytes[5] == 0xEE);
    SO(fuota_receiver_file(&receiver, 3, bytes, 1) == 1 && bytes[0] == 0x44 && bytes[1] == 0x22);
    SO(fuota_receiver_file(&receiver, (fuota_length)-1, bytes, 8) == 0);
    SO(fuota_receiver_file(&receiver, 0, NULL, 0) == 0 && fuota_receiver_status(&receiver, true, NULL, 0) == 0);
    SO(fuota_receiver_hear(&receiver, NULL, 0, 4) == FUOTA_DONE);
    SO(fuota_receiver_new(&receiver, 0) == FUOTA_DONE); /* frees the first */
    SO(fuota_receiver_view(&receiver, &view) == FUOTA_NOTHING && view.file_length == 5);
    fuota_receiver_free(&receiver);
    SO(receiver.at == 0);
    fuota_receiver_free(&receiver);
    return 0;
}

/* Each size takes a file of so many pieces and bytes, and no larger one. */
static int receiver_sizes(void) {
    static const uint16_t pieces[3] = {256, 1024, 4096};
    static const uint8_t piece[3] = {48, 48, 64};
    fuota_receiver receiver = FUOTA_RECEIVER_NONE;
    int size;
    for (size = 0; size < 3; size++) {
        fuota_setup setup = {.nb_frag = pieces[size], .frag_size = piece[size], .mask = 255, .delay = 255};
        SO(fuota_receiver_new(&receiver, (uint8_t)size) == FUOTA_DONE);
        SO(fuota_receiver_set_up(&receiver, &setup) == 0);
        setup.frag_size++;
        SO(fuota_receiver_set_up(&receiver, &setup) == 2);
        setup.nb_frag++;
        setup.frag_size = 1;
        SO(fuota_receiver_set_up(&receiver, &setup) == 2);
    }
    SO(fuota_receiver_new(&receiver, 3) == FUOTA_RANGE && receiver.at == 0);
    return 0;
}

static int device_answers(void) {
    static const uint8_t setup[11] = {0x02, 0x00, 0x03, 0x00, 0x02, 0x00, 0x01, 0x07, 0x00, 0x00, 0x00};
    static const uint8_t rows[3][5] = {
        {0x08, 0x01, 0x00, 0x11, 0x22}, {0x08, 0x03, 0x00, 0x55, 0x00}, {0x08, 0x04, 0x00, 0x33, 0x44}};
    static const uint8_t answer[2] = {0x02, 0x00};
    fuota_device device = FUOTA_DEVICE_NONE;
    fuota_config config = {.hw = 1, .area = 12288, .rows = 16, .formats = 2, .sessions = 1, .groups = 1,
                           .is_class_c = true};
    fuota_arrival arrival = {.t = 1000, .mark = 5};
    fuota_uplink up = {.port = 1};
    fuota_view view = {0};
    fuota_counts counts = {0};
    fuota_next next = {.version = 9};
    uint32_t version = 9;
    uint8_t bytes[8];
    int i;
    config.sessions = 5;
    SO(fuota_device_new(&device, FUOTA_SIZE_LARGE, &config) == FUOTA_RANGE && device.at == 0);
    config.sessions = 1;
    SO(fuota_device_new(&device, 3, &config) == FUOTA_RANGE && device.at == 0);
    SO(fuota_device_new(&device, FUOTA_SIZE_LARGE, &config) == FUOTA_DONE && device.at != 0);
    SO(fuota_device_take_uplink(&device, &up) == FUOTA_NOTHING && up.port == 1);
    SO(fuota_device_radio(&device, zeros, 300, 1000, 1, 1) == FUOTA_FOREIGN);
    SO(fuota_device_radio(&device, zeros, 20, UINT64_C(4294967296000), 1, 1) == FUOTA_RANGE);
    SO(fuota_device_counts(&device, &counts) == FUOTA_DONE && counts.deaf == 1 && counts.refused == 0);
    SO(fuota_device_next(&device, &next) == FUOTA_DONE && next.state == FUOTA_IMAGE_NONE && next.version == 0);
    SO(fuota_device_view(&device, 0, &view) == FUOTA_NOTHING);
    SO(fuota_device_view(&device, 4, &view) == FUOTA_RANGE);
    SO(fuota_device_file(&device, 255, 0, bytes, 8) == 0);
    SO(fuota_device_deliver(&device, 201, setup, sizeof setup, &arrival) == FUOTA_DONE);
    SO(fuota_device_take_uplink(&device, &up) == FUOTA_DONE);
    SO(up.port == 201 && up.due == 1000 && up.length == 2 && !memcmp(up.payload, answer, 2));
    SO(fuota_device_deliver(&device, 201, setup, 10, &arrival) == FUOTA_REFUSED);
    SO(fuota_device_deliver(&device, 201, zeros, 243, &arrival) == FUOTA_RANGE);
    arrival.is_group = true;
    SO(fuota_device_deliver(&device, 201, rows[0], 5, &arrival) == FUOTA_DEAF);
    arrival.is_group = false;
    arrival.t = UINT64_C(4294967296000);
    SO(fuota_device_deliver(&device, 201, rows[0], 5, &arrival) == FUOTA_RANGE);
    arrival.t--;
    for (i = 0; i < 3; i++)
        SO(fuota_device_deliver(&device, 201, rows[i], 5, &arrival) == FUOTA_DONE);
    SO(fuota_device_view(&device, 0, &view) == FUOTA_DONE && view.verdict == FUOTA_COMPLETE && view.mark == 5);
    SO(fuota_device_file(&device, 0, 1, bytes, 8) == 4 && !memcmp(bytes, FILE_BYTES + 1, 4));
    SO(fuota_device_next(&device, &next) == FUOTA_DONE && next.state == FUOTA_IMAGE_CORRUPT);
    SO(fuota_device_raise(&device) == FUOTA_DONE);
    for (i = 0; i < 8; i++)
        SO(fuota_device_wake(&device, 2000) == FUOTA_DONE);
    SO(fuota_device_wake(&device, 2000) == FUOTA_FULL);
    SO(fuota_device_wake(&device, UINT64_C(4294967296000)) == FUOTA_RANGE);
    SO(fuota_device_deliver(&device, 201, setup, sizeof setup, &arrival) == FUOTA_FULL);
    SO(fuota_device_running(&device, &version) == FUOTA_DONE && version == 0);
    fuota_device_free(&device);
    SO(device.at == 0);
    return 0;
}

/* The refusal bits of a setup of so many pieces of so many bytes, at a new device of a size whose area has room for all. */
static int setup_bits(uint8_t size, uint16_t rows, uint16_t pieces, uint8_t bytes) {
    const uint8_t setup[11] = {0x02, 0x00, (uint8_t)pieces, (uint8_t)(pieces >> 8), bytes, 0x00, 0x00, 0, 0, 0, 0};
    fuota_device device = FUOTA_DEVICE_NONE;
    fuota_config config = {.area = 262144, .rows = rows, .formats = 2, .sessions = 1, .groups = 1, .is_class_c = true};
    fuota_arrival arrival = {.t = 1000};
    fuota_uplink up = {0};
    int bits = -1;
    if (fuota_device_new(&device, size, &config) == FUOTA_DONE &&
        fuota_device_deliver(&device, 201, setup, sizeof setup, &arrival) == FUOTA_DONE &&
        fuota_device_take_uplink(&device, &up) == FUOTA_DONE && up.length == 2)
        bits = up.payload[1] & 0x0f;
    fuota_device_free(&device);
    return bits;
}

/* Each size takes files of its pieces, bytes and rows, and refuses a piece, a byte or a row more. */
static int device_sizes(void) {
    SO(setup_bits(FUOTA_SIZE_SMALL, 16, 256, 48) == 0 && setup_bits(FUOTA_SIZE_SMALL, 16, 257, 48) == 2);
    SO(setup_bits(FUOTA_SIZE_SMALL, 16, 256, 49) == 2 && setup_bits(FUOTA_SIZE_SMALL, 17, 256, 48) == 2);
    SO(setup_bits(FUOTA_SIZE_MIDDLE, 64, 1024, 48) == 0 && setup_bits(FUOTA_SIZE_MIDDLE, 64, 1025, 48) == 2);
    SO(setup_bits(FUOTA_SIZE_MIDDLE, 64, 1024, 49) == 2 && setup_bits(FUOTA_SIZE_MIDDLE, 65, 1024, 48) == 2);
    SO(setup_bits(FUOTA_SIZE_LARGE, 256, 4096, 64) == 0 && setup_bits(FUOTA_SIZE_LARGE, 256, 1096, 239) == 0);
    return 0;
}

/* A device ends and another is restored: with its clock's token and its uplinks, and what it received to run next. Each
 * changed byte and each cut is refused, and so are another configuration and other files. */
static int device_outlasts(void) {
    static const uint8_t setup[11] = {0x02, 0x00, 0x03, 0x00, 0x02, 0x00, 0x01, 0x07, 0x00, 0x00, 0x00};
    static const uint8_t rows[3][5] = {
        {0x08, 0x01, 0x00, 0x11, 0x22}, {0x08, 0x02, 0x00, 0x33, 0x44}, {0x08, 0x03, 0x00, 0x55, 0x00}};
    static const uint8_t *none = zeros;
    fuota_device device = FUOTA_DEVICE_NONE;
    fuota_config config = {.hw = 1, .offset = 0x01020304, .area = 12288, .rows = 16, .formats = 2, .sessions = 1,
                           .groups = 1, .is_class_c = true};
    fuota_arrival arrival = {.t = 1000};
    fuota_uplink up = {0};
    fuota_view view = {0};
    uint8_t saved[FUOTA_SAVED_DEVICE], next[8];
    size_t k;
    int i;
    memset(saved, 0xEE, sizeof saved);
    SO(fuota_device_save(&device, saved, sizeof saved) == 0 && saved[0] == 0xEE);
    SO(fuota_device_firmware(&device, true, 0, next, 8) == 0);
    SO(fuota_device_new(&device, FUOTA_SIZE_LARGE, &config) == FUOTA_DONE);
    SO(fuota_device_deliver(&device, 201, setup, sizeof setup, &arrival) == FUOTA_DONE);
    for (i = 0; i < 3; i++)
        SO(fuota_device_deliver(&device, 201, rows[i], 5, &arrival) == FUOTA_DONE);
    SO(fuota_device_firmware(&device, true, 0, next, 8) == 5 && !memcmp(next, FILE_BYTES, 5));
    SO(fuota_device_firmware(&device, true, 3, next + 5, 3) == 2 && next[5] == 0x44 && next[6] == 0x55);
    SO(fuota_device_firmware(&device, false, 0, next, 8) == 0);
    SO(fuota_device_save(&device, saved, sizeof saved - 1) == 0 && saved[0] == 0xEE);
    SO(fuota_device_save(&device, saved, sizeof saved) == sizeof saved);
    SO(!memcmp(saved, "FUSD\1\4\3\2\1\0", 10) && saved[10] == 1 && saved[186] == 1 && saved[203] == 1);
    SO(fuota_device_restore(&device, FUOTA_SIZE_LARGE, &config, saved, sizeof saved, NULL, 0, next, 5) == FUOTA_DONE);
    SO(fuota_device_view(&device, 0, &view) == FUOTA_NOTHING);
    SO(fuota_device_firmware(&device, true, 0, next, 8) == 5 && !memcmp(next, FILE_BYTES, 5));
    SO(fuota_device_take_uplink(&device, &up) == FUOTA_DONE && up.due == 1000 && up.port == 201 && up.length == 2);
    SO(fuota_device_take_uplink(&device, &up) == FUOTA_NOTHING);
    for (k = 0; k < sizeof saved; k++) {
        saved[k] ^= 1;
        SO(fuota_device_restore(&device, FUOTA_SIZE_LARGE, &config, saved, sizeof saved, none, 0, next, 5) == FUOTA_CORRUPT);
        saved[k] ^= 1;
        SO(fuota_device_restore(&device, FUOTA_SIZE_LARGE, &config, saved, k, none, 0, next, 5) == FUOTA_CORRUPT);
        SO(device.at == 0);
    }
    SO(fuota_device_restore(&device, FUOTA_SIZE_LARGE, &config, saved, sizeof saved, none, 0, next, 4) == FUOTA_CORRUPT);
    SO(fuota_device_restore(&device, FUOTA_SIZE_LARGE, &config, saved, sizeof saved, none, 1, next, 5) == FUOTA_CORRUPT);
    config.hw = 2;
    SO(fuota_device_restore(&device, FUOTA_SIZE_LARGE, &config, saved, sizeof saved, none, 0, next, 5) == FUOTA_CORRUPT);
    config.sessions = 5;
    SO(fuota_device_restore(&device, FUOTA_SIZE_LARGE, &config, saved, sizeof saved, none, 0, next, 5) == FUOTA_RANGE);
    SO(device.at == 0);
    return 0;
}

/* A device ends in the middle of a file, and another is restored with its flash: its session goes on. Without power it
 * takes nothing, and a flash with something else in it is refused. */
static int device_in_flash(void) {
    enum { SPAN = 24640 + 4096, FLASH = 4 * SPAN };
    static const uint8_t setup[11] = {0x02, 0x00, 0x03, 0x00, 0x02, 0x00, 0x01, 0x07, 0x00, 0x00, 0x00};
    static const uint8_t rows[3][5] = {
        {0x08, 0x01, 0x00, 0x11, 0x22}, {0x08, 0x02, 0x00, 0x33, 0x44}, {0x08, 0x03, 0x00, 0x55, 0x00}};
    static uint8_t flash[FLASH];
    fuota_device device = FUOTA_DEVICE_NONE;
    fuota_config config = {.hw = 1, .area = 64, .rows = 4, .formats = 2, .sessions = 1, .groups = 1,
                           .is_class_c = true};
    fuota_arrival arrival = {.t = 1000};
    fuota_view view = {0};
    uint8_t saved[FUOTA_SAVED_DEVICE], bytes[8];
    int i;
    SO(fuota_device_power(&device) == FUOTA_NO_OBJECT && fuota_device_flash(&device, 0, flash, FLASH) == 0);
    SO(fuota_device_new(&device, FUOTA_SIZE_LARGE, &config) == FUOTA_DONE && fuota_device_power(&device) == FUOTA_NOTHING);
    SO(fuota_device_flash(&device, 0, flash, FLASH) == 0);
    SO(fuota_device_new_in_flash(&device, FUOTA_SIZE_LARGE, &config, SPAN, flash, FLASH - 1) == FUOTA_RANGE && device.at == 0);
    SO(fuota_device_new_in_flash(&device, FUOTA_SIZE_LARGE, &config, 24639, flash, FLASH) == FUOTA_RANGE);
    SO(fuota_device_new_in_flash(&device, FUOTA_SIZE_LARGE, &config, SPAN, NULL, 0) == FUOTA_RANGE);
    SO(fuota_device_new_in_flash(&device, FUOTA_SIZE_LARGE, &config, SPAN, flash, FLASH) == FUOTA_DONE);
    SO(fuota_device_deliver(&device, 201, setup, sizeof setup, &arrival) == FUOTA_DOWN);
    SO(fuota_device_radio(&device, zeros, 20, 1000, 1, 1) == FUOTA_DOWN);
    SO(fuota_device_power(&device) == FUOTA_DONE);
    SO(fuota_device_deliver(&device, 201, setup, sizeof setup, &arrival) == FUOTA_DONE);
    for (i = 0; i < 3; i++) {
        arrival.mark = (uint64_t)i + 1;
        SO(fuota_device_deliver(&device, 201, rows[i], 5, &arrival) == FUOTA_DONE);
        SO(fuota_device_save(&device, saved, sizeof saved) == sizeof saved);
        SO(fuota_device_flash(&device, 0, flash, FLASH) == FLASH);
        SO(fuota_device_firmware(&device, true, 0, bytes, 8) == (i == 2 ? 5 : 0));
        SO(fuota_device_restore_in_flash(&device, FUOTA_SIZE_LARGE, &config, SPAN, flash, FLASH, saved, sizeof saved, NULL,
                                         0, bytes, i == 2 ? 5 : 0) == FUOTA_DONE);
        SO(fuota_device_view(&device, 0, &view) == FUOTA_NOTHING);
        SO(fuota_device_power(&device) == FUOTA_DONE && fuota_device_power(&device) == FUOTA_DONE);
        SO(fuota_device_view(&device, 0, &view) == FUOTA_DONE && view.received == i + 1 && view.missing == 2 - i);
    }
    SO(view.verdict == FUOTA_COMPLETE && view.mark == 3);
    SO(fuota_device_file(&device, 0, 0, bytes, 8) == 5 && !memcmp(bytes, FILE_BYTES, 5));
    SO(fuota_device_flash(&device, FLASH - 2, bytes, 8) == 2 && fuota_device_flash(&device, FLASH, bytes, 8) == 0);
    flash[65] = 0; /* a closed gate before an open one */
    SO(fuota_device_restore_in_flash(&device, FUOTA_SIZE_LARGE, &config, SPAN, flash, FLASH, saved, sizeof saved, NULL, 0, bytes,
                                     4) == FUOTA_CORRUPT);
    SO(fuota_device_new_in_flash(&device, FUOTA_SIZE_LARGE, &config, SPAN, flash, FLASH) == FUOTA_DONE);
    SO(fuota_device_power(&device) == FUOTA_FLASH);
    SO(fuota_device_deliver(&device, 201, setup, sizeof setup, &arrival) == FUOTA_DOWN);
    fuota_device_free(&device);
    return 0;
}

static int server_answers(const uint8_t *image, size_t length) {
    fuota_server server = FUOTA_SERVER_NONE;
    fuota_plan plan = {.frag_size = 13, .parity = 1};
    fuota_down down = {.addr = 9};
    fuota_stage stage = {0};
    uint32_t count = 9;
    uint16_t number = 9;
    uint8_t field = 7, frame[FUOTA_MAX_FRAME];
    int i;
    SO(fuota_server_new(&server, &plan, devices, 2, image, length - 1, &field) == FUOTA_REFUSED && field == 7);
    plan.frag_size = 0;
    SO(fuota_server_new(&server, &plan, devices, 2, image, length, &field) == FUOTA_RANGE);
    SO(field == FUOTA_FIELD_FRAG_SIZE);
    plan.frag_size = 13;
    plan.parity = 513;
    plan.index = 4;
    plan.has_group = true;
    SO(fuota_server_new(&server, &plan, devices, 2, image, length, &field) == FUOTA_RANGE);
    SO(field == FUOTA_FIELD_PARITY);
    plan.parity = 1;
    SO(fuota_server_new(&server, &plan, devices, 2, image, length, &field) == FUOTA_RANGE);
    SO(field == FUOTA_FIELD_INDEX);
    plan.index = 0;
    SO(fuota_server_new(&server, &plan, devices, 2, image, length, &field) == FUOTA_RANGE);
    SO(field == FUOTA_FIELD_GROUP);
    plan.max = 3;
    SO(fuota_server_new(&server, &plan, devices, 2, image, length, &field) == FUOTA_RANGE);
    SO(field == FUOTA_FIELD_WINDOW);
    plan.has_window = true;
    SO(fuota_server_new(&server, &plan, devices, 0, image, length, &field) == FUOTA_RANGE);
    SO(field == FUOTA_FIELD_DEVICES);
    SO(server.at == 0);
    SO(fuota_server_new(&server, &plan, devices, 2, image, length, &field) == FUOTA_DONE && server.at != 0);
    SO(fuota_server_ask(&server, 0, &down) == FUOTA_RANGE && fuota_server_ask(&server, 3, &down) == FUOTA_RANGE);
    SO(fuota_server_ask(&server, 2, &down) == FUOTA_DONE);
    SO(!down.is_group && down.addr == 9 && down.port == 203 && down.length == 1 && down.payload[0] == 0x01);
    SO(fuota_server_uplink(&server, 2, 203, zeros, 1, 0, &down) == FUOTA_REFUSED);
    SO(fuota_server_uplink(&server, 3, 203, zeros, 1, 0, &down) == FUOTA_RANGE);
    SO(fuota_server_uplink(&server, 2, 203, zeros, 243, 0, &down) == FUOTA_RANGE);
    SO(fuota_server_ledger(&server, 2, &stage) == FUOTA_DONE && stage.stage == FUOTA_AT);
    SO(stage.request == FUOTA_REQUEST_VERSION && stage.bits == 0);
    SO(fuota_server_ledger(&server, 3, &stage) == FUOTA_RANGE);
    for (i = 0; i < 2; i++) {
        SO(fuota_server_fragment_number(&server, &number) == FUOTA_DONE && number == i + 1);
        SO(fuota_server_frame_count(&server, &count) == FUOTA_DONE && (int)count == i);
        SO(fuota_server_next_fragment(&server, &down) == FUOTA_DONE);
        SO(down.is_group && down.addr == 0 && (int)down.count == i && down.port == 201 && down.length == 16);
        SO(down.payload[0] == 0x08 && down.payload[1] == i + 1 && !memcmp(down.payload + 3, image + 13 * i, 13));
    }
    SO(fuota_server_frame(&server, &down, frame, 28) == 0);
    SO(fuota_server_frame(&server, &down, frame, sizeof frame) == 29 && frame[0] == 0x60 && frame[8] == 201);
    down.port = 0;
    SO(fuota_server_frame(&server, &down, frame, sizeof frame) == 0);
    down.port = 201;
    down.length = 243;
    SO(fuota_server_frame(&server, &down, frame, sizeof frame) == 0);
    down.length = 242;
    SO(fuota_server_frame(&server, &down, frame, sizeof frame) == 255);
    down.addr = 1;
    SO(fuota_server_frame(&server, &down, frame, sizeof frame) == 0);
    SO(fuota_server_status_all(&server, &down) == FUOTA_DONE && down.count == 2 && down.length == 2);
    SO(fuota_server_status_all(&server, &down) == FUOTA_SPENT);
    SO(fuota_server_next_fragment(&server, &down) == FUOTA_SPENT);
    SO(fuota_server_fragment_number(&server, &number) == FUOTA_DONE && number == 3);
    SO(fuota_server_frame_count(&server, &count) == FUOTA_DONE && count == plan.max);
    plan.has_group = plan.has_window = false;
    SO(fuota_server_new(&server, &plan, devices, 1, image, length, &field) == FUOTA_DONE); /* frees the first */
    for (i = 0; fuota_server_next_fragment(&server, &down) == FUOTA_DONE; i++)
        SO(!down.is_group && fuota_server_frame(&server, &down, frame, sizeof frame) == 0);
    SO(i == 5 && fuota_server_next_fragment(&server, &down) == FUOTA_NOTHING);
    SO(fuota_server_fragment_number(&server, &number) == FUOTA_DONE && number == 6);
    SO(fuota_server_frame_count(&server, &count) == FUOTA_DONE && count == 0);
    fuota_server_free(&server);
    SO(server.at == 0);
    return 0;
}

/* A server ends and another is restored after each of its calls, and each changed byte and each cut is refused. */
static int server_outlasts(const uint8_t *image, size_t length) {
    static const uint8_t first[18] = {'F', 'U', 'S', 'S', 1, 1, 0, 0, 0, 0, 0, 1, 0, 0, 0, 0, 0, 0};
    static const uint8_t told[5] = {0x01, 0x34, 0x12, 0x56, 0x01};
    fuota_server server = FUOTA_SERVER_NONE;
    fuota_plan plan = {.frag_size = 13, .parity = 1};
    fuota_down down = {0};
    fuota_status status = {.missing = 9};
    uint8_t saved[FUOTA_SAVED_SERVER], field = 7;
    size_t count, k;
    int i;
    memset(saved, 0xEE, sizeof saved);
    SO(fuota_server_save(&server, saved, sizeof saved) == 0 && saved[0] == 0xEE);
    SO(fuota_server_last_status(&server, 1, &status) == FUOTA_NO_OBJECT && status.missing == 9);
    SO(fuota_server_new(&server, &plan, devices, 1, image, length, &field) == FUOTA_DONE);
    SO(fuota_server_save(&server, saved, 49) == 0 && saved[0] == 0xEE);
    for (i = 0; i < 6; i++) {
        count = fuota_server_save(&server, saved, sizeof saved);
        SO(count == 50 && saved[50] == 0xEE && saved[5] == i + 1);
        SO(i > 0 || !memcmp(saved, first, sizeof first));
        SO(fuota_server_restore(&server, &plan, devices, 1, image, length, saved, count, &field) == FUOTA_DONE);
        SO(fuota_server_next_fragment(&server, &down) == (i < 5 ? FUOTA_DONE : FUOTA_NOTHING));
        SO(i == 5 || (down.payload[1] == i + 1 && down.payload[2] == 0));
    }
    SO(fuota_server_last_status(&server, 1, &status) == FUOTA_NOTHING && status.missing == 9);
    SO(fuota_server_last_status(&server, 2, &status) == FUOTA_RANGE);
    SO(fuota_server_uplink(&server, 1, 201, told, 5, 0, &down) == FUOTA_NOTHING);
    SO(fuota_server_save(&server, saved, sizeof saved) == count && !memcmp(saved + 14, "\3\x34\x12\x56", 4));
    SO(fuota_server_restore(&server, &plan, devices, 1, image, length, saved, count, &field) == FUOTA_DONE);
    SO(fuota_server_last_status(&server, 1, &status) == FUOTA_DONE);
    SO(status.received == 0x1234 && status.missing == 0x56 && status.norows);
    for (k = 0; k < count; k++) {
        saved[k] ^= 1;
        SO(fuota_server_restore(&server, &plan, devices, 1, image, length, saved, count, &field) == FUOTA_CORRUPT);
        saved[k] ^= 1;
        SO(fuota_server_restore(&server, &plan, devices, 1, image, length, saved, k, &field) == FUOTA_CORRUPT);
        SO(server.at == 0);
    }
    SO(fuota_server_restore(&server, &plan, devices, 2, image, length, saved, count, &field) == FUOTA_CORRUPT);
    SO(fuota_server_restore(&server, &plan, devices, 1, image, length - 1, saved, count, &field) == FUOTA_REFUSED);
    SO(field == 7);
    plan.parity = 513;
    SO(fuota_server_restore(&server, &plan, devices, 1, image, length, saved, count, &field) == FUOTA_RANGE);
    SO(field == FUOTA_FIELD_PARITY && server.at == 0);
    return 0;
}

static int session_key_answers(void) {
    static const uint8_t key[16] = {0x00, 0x11, 0x22, 0x33, 0x44, 0x55, 0x66, 0x77,
                                    0x88, 0x99, 0xAA, 0xBB, 0xCC, 0xDD, 0xEE, 0xFF};
    static const uint8_t app[16] = {0x10, 0x76, 0xBB, 0xC2, 0xEA, 0x64, 0xF6, 0xE7,
                                    0x58, 0x05, 0x68, 0x87, 0x98, 0x92, 0x8A, 0xBA};
    static const uint8_t net[16] = {0x9F, 0x04, 0x20, 0xFE, 0xDD, 0xEA, 0x37, 0xD9,
                                    0xF0, 0x57, 0xE1, 0xA2, 0x1F, 0x2C, 0xD4, 0xCA};
    uint8_t found[16];
    fuota_mc_app_s_key(key, 0x11223344, found);
    SO(!memcmp(found, app, sizeof app));
    fuota_mc_net_s_key(key, 0x11223344, found);
    SO(!memcmp(found, net, sizeof net));
    return 0;
}

static int is_request(const fuota_down *down, uint8_t port, const char *bytes, fuota_length length) {
    return down->port == port && !down->is_group && down->length == length && !memcmp(down->payload, bytes, length);
}

static int request_answers(void) {
    fuota_down out = {0};
    SO(fuota_frag_session_delete(3, &out) == FUOTA_DONE && is_request(&out, 201, "\x03\x03", 2));
    SO(fuota_mc_group_delete(2, &out) == FUOTA_DONE && is_request(&out, 200, "\x03\x02", 2));
    SO(fuota_dev_delete_image(0x01020304, &out) == FUOTA_DONE && is_request(&out, 203, "\x05\x04\x03\x02\x01", 5));
    SO(fuota_force_device_resync(7, &out) == FUOTA_DONE && is_request(&out, 202, "\x03\x07", 2));
    SO(fuota_frag_session_delete(4, &out) == FUOTA_RANGE && fuota_mc_group_delete(4, &out) == FUOTA_RANGE);
    SO(fuota_force_device_resync(8, &out) == FUOTA_RANGE && is_request(&out, 202, "\x03\x07", 2));
    return 0;
}

static int decode_answers(void) {
    static const uint8_t status[5] = {0x01, 0x02, 0x00, 0x01, 0x00};
    static const char line[] = "FragSessionStatusAns";
    uint8_t text[100];
    fuota_decoded out = {0};
    memset(text, 0xEE, sizeof text);
    SO(fuota_decode(201, true, status, 5, text, 3, &out) == FUOTA_NO_ROOM && out.length > 20 && text[0] == 0xEE);
    SO(fuota_decode(201, true, status, 5, text, sizeof text, &out) == FUOTA_DONE);
    SO(!memcmp(text, line, sizeof line - 1));
    SO(text[out.length - 1] == '\n' && text[out.length] == 0xEE);
    SO(fuota_decode(201, true, status, 4, text, sizeof text, &out) == FUOTA_REFUSED);
    SO(out.at == 4 && out.why == FUOTA_WHY_SHORT);
    SO(fuota_decode(201, true, NULL, 0, NULL, 0, &out) == FUOTA_DONE && out.length == 0);
    SO(fuota_decode(9, true, status, 4, text, sizeof text, &out) == FUOTA_REFUSED);
    SO(out.at == 0 && out.why == FUOTA_WHY_PORT);
    SO(fuota_decode(201, true, zeros, 243, text, sizeof text, &out) == FUOTA_RANGE && out.why == FUOTA_WHY_PORT);
    SO(fuota_decode(201, true, zeros, 242, text, sizeof text, &out) == FUOTA_REFUSED);
    return 0;
}

int main(int argc, char **argv) {
    uint8_t image[100];
    FILE *file = argc == 2 ? fopen(argv[1], "rb") : NULL;
    size_t length = file ? fread(image, 1, sizeof image, file) : 0;
    if (file)
        fclose(file);
    if (length != 52)
        return 2;
    return without_objects() || receiver_answers() || receiver_sizes() || device_answers() || device_sizes()
        || device_outlasts() || device_in_flash() || server_answers(image, length) || server_outlasts(image, length)
        || session_key_answers() || request_answers() || decode_answers();
}
