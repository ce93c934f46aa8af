/* The heap fails at each block in turn: what makes an object answers FUOTA_NO_MEMORY, leaves no object, and gives
 * all blocks back; after so many blocks as it takes it answers FUOTA_DONE. Prints the blocks of each, and their
 * bytes as the code asks for them. Any build of the library over c/heap.h prints the same. */
#include "fuota.h"
#include "heap.h"

#include <stdio.h>
#include <stdlib.h>
#include <string.h>

static unsigned left, blocks, most, asked;
static uint64_t bytes;

static void *answered(void *at) {
    blocks += at != NULL;
    most = blocks > most ? blocks : most;
    return at;
}

static bool is_refused(size_t size) {
    asked++;
    bytes += size;
    if (left == 0)
        return true;
    left--;
    return false;
}

void *fuota_heap_take(size_t size) { return is_refused(size) ? NULL : answered(malloc(size)); }

void *fuota_heap_resize(void *at, size_t size) {
    if (is_refused(size))
        return NULL;
    return at ? realloc(at, size) : answered(malloc(size));
}

void fuota_heap_give(void *at) {
    blocks -= at != NULL;
    free(at);
}

static fuota_receiver receiver = FUOTA_RECEIVER_NONE;
static fuota_device device = FUOTA_DEVICE_NONE;
static fuota_server server = FUOTA_SERVER_NONE;
static uint8_t saved[FUOTA_SAVED_DEVICE], image[52], text[4000], field;
static fuota_length image_length;
static fuota_config config;
static fuota_plan plan;
static fuota_plan_device devices[1];

static fuota_result receiver_small(void) { return fuota_receiver_new(&receiver, FUOTA_SIZE_SMALL); }
static fuota_result receiver_large(void) { return fuota_receiver_new(&receiver, FUOTA_SIZE_LARGE); }
static void receiver_free(void) { fuota_receiver_free(&receiver); }
static fuota_result device_small(void) { return fuota_device_new(&device, FUOTA_SIZE_SMALL, &config); }
static fuota_result device_large(void) { return fuota_device_new(&device, FUOTA_SIZE_LARGE, &config); }
static fuota_result device_restore(void) {
    return fuota_device_restore(&device, FUOTA_SIZE_SMALL, &config, saved, sizeof saved, image, 0, image, 0);
}
static void device_free(void) { fuota_device_free(&device); }
static fuota_result server_new(void) {
    return fuota_server_new(&server, &plan, devices, 1, image, image_length, &field);
}
static void server_free(void) { fuota_server_free(&server); }
static fuota_result decode(void) {
    static const uint8_t payload[100];
    fuota_decoded decoded = {0};
    return fuota_decode(200, false, payload, sizeof payload, text, sizeof text, &decoded);
}
static void nothing(void) {}

static int fails(const char *name, unsigned block, fuota_result answer) {
    printf("%s: at block %u it answers %d, and %u blocks are left\n", name, block, answer, blocks);
    return 1;
}

static int try(const char *name, fuota_result (*make)(void), void (*give)(void), const uint64_t *at) {
    unsigned count;
    fuota_result answer = FUOTA_NO_MEMORY;
    for (count = 0; answer != FUOTA_DONE; count++) {
        left = count;
        most = asked = 0;
        bytes = 0;
        answer = make();
        if (answer == FUOTA_DONE)
            break;
        if (answer != FUOTA_NO_MEMORY || blocks != 0 || (at && *at != 0))
            return fails(name, count, answer);
    }
    printf("%s: %u calls for %u bytes, %u blocks at most\n", name, asked, (unsigned)bytes, most);
    give();
    return blocks == 0 ? 0 : fails(name, count, answer);
}

int main(int argc, char **argv) {
    FILE *source = argc > 1 ? fopen(argv[1], "rb") : NULL;
    image_length = source ? fread(image, 1, sizeof image, source) : 0;
    config.hw = 1;
    config.area = 3000;
    config.rows = 16;
    config.formats = 2;
    config.sessions = config.groups = 1;
    config.is_class_c = true;
    plan.frag_size = 13;
    left = 1000;
    if (device_small() != FUOTA_DONE || fuota_device_save(&device, saved, sizeof saved) != sizeof saved)
        return 1;
    fuota_device_free(&device);
    return try("receiver, small", receiver_small, receiver_free, &receiver.at) ||
           try("receiver, large", receiver_large, receiver_free, &receiver.at) ||
           try("device, small", device_small, device_free, &device.at) ||
           try("device, large", device_large, device_free, &device.at) ||
           try("device, restored", device_restore, device_free, &device.at) ||
           try("server", server_new, server_free, &server.at) || try("text", decode, nothing, NULL);
}
