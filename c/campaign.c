/* A campaign between a server and a device, which loses every third fragment: campaign IMAGE, an image file of
 * tools/make_image for hardware 1. The radio is what calls on both sides; a server of a network asks when a device can
 * hear, and asks again. */
#include "fuota.h"
#include <stdio.h>
#include <string.h>

static fuota_server server = FUOTA_SERVER_NONE;
static fuota_device device = FUOTA_DEVICE_NONE;

/* A payload comes to the device at t. */
static void deliver(const fuota_down *down, uint64_t t, uint64_t mark) {
    const fuota_arrival arrival = fuota_arrival_of(down, t, 0x5EED, mark);
    fuota_device_deliver(&device, down->port, down->payload, down->length, &arrival);
}

/* A payload comes down at t, what the device sends goes up, and what the server answers comes down. */
static void radio(const fuota_down *down, uint64_t t, uint64_t mark) {
    fuota_uplink up = {0};
    fuota_down answer = {0};
    deliver(down, t, mark);
    while (fuota_device_take_uplink(&device, &up) == FUOTA_DONE)
        if (fuota_server_uplink(&server, 1, up.port, up.payload, up.length, t, &answer) == FUOTA_DONE)
            deliver(&answer, t, mark);
}

int main(int argc, char **argv) {
    static uint8_t image[262144], file[262144];
    const fuota_plan_device devices[1] = {{.key = {0x2B, 0x7E, 0x15, 0x16}}};
    const fuota_config config = {.hw = 1, .area = 262144, .rows = 64, .formats = 2, .sessions = 1, .groups = 1,
                                 .is_class_c = true, .key = {0x2B, 0x7E, 0x15, 0x16}};
    const fuota_plan plan = {.frag_size = 48, .parity = 64};
    FILE *source = argc == 2 ? fopen(argv[1], "rb") : NULL;
    size_t length = source ? fread(image, 1, sizeof image, source) : 0;
    fuota_down down = {0};
    fuota_stage stage = {0};
    uint8_t field = 0;
    uint32_t version = 0;
    uint64_t t = 0, sent = 0, heard = 0;
    if (source)
        fclose(source);
    if (fuota_server_new(&server, &plan, devices, 1, image, length, &field) != FUOTA_DONE ||
        fuota_device_new(&device, FUOTA_SIZE_LARGE, &config) != FUOTA_DONE)
        return 1;
    while (fuota_server_ledger(&server, 1, &stage) == FUOTA_DONE && stage.stage == FUOTA_AT && t < 100000) {
        t += 1000;
        if (stage.request == FUOTA_REQUEST_STATUS)
            while (fuota_server_next_fragment(&server, &down) == FUOTA_DONE)
                if (++sent % 3 && ++heard)
                    radio(&down, t, sent);
        if (fuota_server_ask(&server, 1, &down) == FUOTA_DONE)
            radio(&down, t, sent);
    }
    fuota_device_running(&device, &version);
    printf("sent %d heard %d\n", (int)sent, (int)heard);
    if (fuota_device_file(&device, 0, 0, file, sizeof file) == length && memcmp(file, image, length) == 0)
        printf("the file is as sent, %d bytes\n", (int)length);
    printf("%s, running %d\n", stage.stage == FUOTA_UPDATED ? "updated" : "not updated", (int)version);
    fuota_device_free(&device);
    fuota_server_free(&server);
    return stage.stage != FUOTA_UPDATED;
}
