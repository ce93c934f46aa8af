/* What the calls take on the machine that this runs on: of the stack, at most, and the longest `deliver`, by its time.
 * A server sends the longest image to a device in 4,096 pieces of 64 bytes; it hears 256 coded fragments first, or the
 * pieces first but for 256, or loses one in twenty. A receiver hears 256 pieces of 48 bytes, and loses one in sixteen.
 * Build it with -Wl,-z,now, or what binds functions at their first call is measured too: measure IMAGE SMALL [N [K]],
 * image files for hardware 1 of at most 262,144 and 12,288 bytes. With N, campaign N alone is played, from 0, and with
 * K the device hears K payloads of it; so two runs under valgrind --tool=callgrind
 * --toggle-collect=fuota_device_deliver, of K and of K - 1, tell the instructions of one. */
#define _XOPEN_SOURCE 700
#include "fuota.h"
#include <stdio.h>
#include <stdlib.h>
#include <string.h>
#include <time.h>
#include <ucontext.h>

enum { STACK = 1 << 18, PAINT = 0xA5 };

static uint8_t stack[STACK], image[262144], small[12288], file[262144], flash[4 * FUOTA_LONGEST_SPAN];
static size_t image_length, small_length, saved_length, kept_length, file_length;
static ucontext_t here, there;

static fuota_receiver receiver = FUOTA_RECEIVER_NONE;
static fuota_device device = FUOTA_DEVICE_NONE;
static fuota_server server = FUOTA_SERVER_NONE;
static fuota_setup setup = {.frag_size = 48};
static const fuota_config config = {.hw = 1, .area = 262144, .rows = 256, .formats = 2, .sessions = 4, .groups = 4,
                                    .is_class_c = true};
static const fuota_plan plan = {.frag_size = 64, .parity = 512};
static const fuota_plan small_plan = {.frag_size = 48, .parity = 64, .addr = 1, .max = 1000, .has_group = true,
                                      .has_window = true};
static const fuota_plan_device devices[1];
static fuota_arrival arrival = {.t = 1000};
static fuota_down down;
static fuota_uplink up;
static fuota_stage stage;
static fuota_view view;
static fuota_decoded decoded;
static uint8_t s_key[16];
static uint8_t text[1000], saved[FUOTA_SAVED_SERVER], kept[FUOTA_SAVED_DEVICE], answer, field;
static uint32_t version, count;
static uint16_t number;
static uint8_t frame[FUOTA_MAX_FRAME];
static size_t frame_length;
static fuota_counts counts;
static fuota_next next;
static fuota_status status;
static int most = -1;

/* ---- The calls, each over the values above ---- */

static void nothing(void) {}
static void receiver_new(void) { answer = fuota_receiver_new(&receiver, FUOTA_SIZE_SMALL); }
static void receiver_free(void) { fuota_receiver_free(&receiver); }
static void receiver_set_up(void) { answer = fuota_receiver_set_up(&receiver, &setup); }
static void receiver_hear(void) { answer = fuota_receiver_hear(&receiver, down.payload, down.length, 1); }
static void receiver_view(void) { answer = fuota_receiver_view(&receiver, &view); }
static void receiver_file(void) { fuota_receiver_file(&receiver, 0, file, sizeof file); }
static void receiver_status(void) { fuota_receiver_status(&receiver, true, text, sizeof text); }
static void device_new(void) { answer = fuota_device_new(&device, FUOTA_SIZE_LARGE, &config); }
static void device_free(void) { fuota_device_free(&device); }
static void device_deliver(void) {
    answer = fuota_device_deliver(&device, down.port, down.payload, down.length, &arrival);
}
static void device_radio(void) { answer = fuota_device_radio(&device, frame, frame_length, 1000, 1, 1); }
static void device_counts(void) { answer = fuota_device_counts(&device, &counts); }
static void device_next(void) { answer = fuota_device_next(&device, &next); }
static void device_raise(void) { answer = fuota_device_raise(&device); }
static void device_wake(void) { answer = fuota_device_wake(&device, 1000); }
static void device_take_uplink(void) { answer = fuota_device_take_uplink(&device, &up); }
static void device_view(void) { answer = fuota_device_view(&device, 0, &view); }
static void device_file(void) { fuota_device_file(&device, 0, 0, file, sizeof file); }
static void device_running(void) { answer = fuota_device_running(&device, &version); }
static void device_save(void) { kept_length = fuota_device_save(&device, kept, sizeof kept); }
static void device_firmware(void) { file_length = fuota_device_firmware(&device, true, 0, file, sizeof file); }
static void device_restore(void) {
    answer = fuota_device_restore(&device, FUOTA_SIZE_LARGE, &config, kept, kept_length, kept, 0, file, file_length);
}
static void device_new_in_flash(void) {
    answer = fuota_device_new_in_flash(&device, FUOTA_SIZE_LARGE, &config, FUOTA_LONGEST_SPAN, flash, sizeof flash);
}
static void device_restore_in_flash(void) {
    answer = fuota_device_restore_in_flash(&device, FUOTA_SIZE_LARGE, &config, FUOTA_LONGEST_SPAN, flash, sizeof flash, kept,
                                           kept_length, kept, 0, file, file_length);
}
static void device_power(void) { answer = fuota_device_power(&device); }
static void device_flash(void) { fuota_device_flash(&device, 0, flash, sizeof flash); }
static void server_new(void) {
    answer = fuota_server_new(&server, &plan, devices, 1, image, image_length, &field);
}
static void small_server_new(void) {
    answer = fuota_server_new(&server, &small_plan, devices, 1, small, small_length, &field);
}
static void server_free(void) { fuota_server_free(&server); }
static void server_next_fragment(void) { answer = fuota_server_next_fragment(&server, &down); }
static void server_status_all(void) { answer = fuota_server_status_all(&server, &down); }
static void server_frame(void) { frame_length = fuota_server_frame(&server, &down, frame, sizeof frame); }
static void server_ask(void) { answer = fuota_server_ask(&server, 1, &down); }
static void server_uplink(void) {
    answer = fuota_server_uplink(&server, 1, up.port, up.payload, up.length, 1000, &down);
}
static void server_ledger(void) { answer = fuota_server_ledger(&server, 1, &stage); }
static void server_last_status(void) { answer = fuota_server_last_status(&server, 1, &status); }
static void server_fragment_number(void) { answer = fuota_server_fragment_number(&server, &number); }
static void server_frame_count(void) { answer = fuota_server_frame_count(&server, &count); }
static void server_save(void) { saved_length = fuota_server_save(&server, saved, sizeof saved); }
static void server_restore(void) {
    answer = fuota_server_restore(&server, &plan, devices, 1, image, image_length, saved, saved_length, &field);
}
static void mc_app_s_key(void) { fuota_mc_app_s_key(plan.key, plan.addr, s_key); }
static void mc_net_s_key(void) { fuota_mc_net_s_key(plan.key, plan.addr, s_key); }
static void frag_session_delete(void) { answer = fuota_frag_session_delete(0, &down); }
static void mc_group_delete(void) { answer = fuota_mc_group_delete(0, &down); }
static void dev_delete_image(void) { answer = fuota_dev_delete_image(1, &down); }
static void force_device_resync(void) { answer = fuota_force_device_resync(1, &down); }
static void library_version(void) { version = fuota_version(); }
static void library_pointer_bits(void) { version = fuota_pointer_bits(); }
/* A capture whose last line is nested as deep as JSON may be there. */
enum { LEVELS = 126 };
static char nested[512];
static void run(void) {
    static const char front[] = "capture 1 0\n{\"port\":7,\"dir\":\"up\",\"hex\":\"\",\"x\":";
    fuota_word words[3] = {{fuota_at("fuota"), 5}, {fuota_at("capture"), 7}, {fuota_at("log"), 3}};
    fuota_file log = {fuota_at("log"), 3, fuota_at(nested), sizeof front - 1 + 2 * LEVELS + 1};
    fuota_ran ran;
    memcpy(nested, front, sizeof front - 1);
    memset(nested + sizeof front - 1, '[', LEVELS);
    memset(nested + sizeof front - 1 + LEVELS, ']', LEVELS);
    nested[sizeof front - 1 + 2 * LEVELS] = '}';
    answer = fuota_run(words, 3, &log, 1, text, sizeof text, &ran);
}
static void decode(void) { answer = fuota_decode(up.port, true, up.payload, up.length, text, sizeof text, &decoded); }

typedef struct call {
    void (*run)(void);
    const char *name;
    size_t most;
} call;

static call calls[] = {
    {nothing, "nothing", 0},
    {receiver_new, "receiver_new", 0}, {receiver_free, "receiver_free", 0}, {receiver_set_up, "receiver_set_up", 0},
    {receiver_hear, "receiver_hear", 0}, {receiver_view, "receiver_view", 0}, {receiver_file, "receiver_file", 0},
    {receiver_status, "receiver_status", 0}, {device_new, "device_new", 0}, {device_free, "device_free", 0},
    {device_deliver, "device_deliver", 0}, {device_radio, "device_radio", 0}, {device_wake, "device_wake", 0},
    {device_counts, "device_counts", 0}, {device_next, "device_next", 0}, {device_raise, "device_raise", 0},
    {device_take_uplink, "device_take_uplink", 0},
    {device_view, "device_view", 0}, {device_file, "device_file", 0}, {device_running, "device_running", 0},
    {device_save, "device_save", 0}, {device_firmware, "device_firmware", 0}, {device_restore, "device_restore", 0},
    {device_new_in_flash, "device_new_in_flash", 0}, {device_restore_in_flash, "device_restore_in_flash", 0},
    {device_power, "device_power", 0}, {device_flash, "device_flash", 0},
    {server_new, "server_new", 0}, {server_free, "server_free", 0}, {server_next_fragment, "server_next_fragment", 0},
    {server_status_all, "server_status_all", 0}, {server_ask, "server_ask", 0}, {server_uplink, "server_uplink", 0},
    {server_ledger, "server_ledger", 0}, {server_save, "server_save", 0}, {server_restore, "server_restore", 0},
    {server_frame, "server_frame", 0}, {server_last_status, "server_last_status", 0},
    {server_fragment_number, "server_fragment_number", 0}, {server_frame_count, "server_frame_count", 0},
    {mc_app_s_key, "mc_app_s_key", 0}, {mc_net_s_key, "mc_net_s_key", 0},
    {frag_session_delete, "frag_session_delete", 0}, {mc_group_delete, "mc_group_delete", 0},
    {dev_delete_image, "dev_delete_image", 0}, {force_device_resync, "force_device_resync", 0},
    {library_version, "version", 0},
    {library_pointer_bits, "pointer_bits", 0}, {decode, "decode", 0}, {run, "run", 0}};

enum { CALLS = sizeof calls / sizeof calls[0] };

/* Makes a call on a painted stack, and keeps how much of it was written over at most; its time in ns. */
static double made(void (*run)(void)) {
    struct timespec before, after;
    size_t untouched = 0, i;
    if (most >= 0) {
        run();
        return 0;
    }
    memset(stack, PAINT, sizeof stack);
    getcontext(&there);
    there.uc_stack.ss_sp = stack;
    there.uc_stack.ss_size = sizeof stack;
    there.uc_link = &here;
    makecontext(&there, run, 0);
    clock_gettime(CLOCK_MONOTONIC, &before);
    swapcontext(&here, &there);
    clock_gettime(CLOCK_MONOTONIC, &after);
    while (untouched < STACK && stack[untouched] == PAINT)
        untouched++;
    for (i = 0; i < CALLS; i++)
        if (calls[i].run == run && STACK - untouched > calls[i].most)
            calls[i].most = STACK - untouched;
    return (double)(after.tv_sec - before.tv_sec) * 1e9 + (double)(after.tv_nsec - before.tv_nsec);
}

/* ---- Campaigns ---- */

static double longest;
static int longest_at, heard;

static void radio(void) {
    double time;
    if (heard == most)
        return;
    time = made(device_deliver);
    heard++;
    if (time > longest) {
        longest = time;
        longest_at = heard;
    }
    while (made(device_take_uplink), answer == FUOTA_DONE) {
        made(decode);
        made(run);
        made(server_uplink);
    }
}

/* Whether the device hears fragment n in the first pass, and in the second. */
static bool hears(int campaign, int pass, int n) {
    const bool coded = n > 4096;
    const bool lost = campaign == 2 ? rand() % 20 == 0 : n % 16 == 0;
    return campaign == 0 ? coded == (pass == 0) && (n <= 4096 || n <= 4096 + 256) : pass == 0 && (coded || !lost);
}

static void play(int campaign) {
    int pass, n;
    longest = longest_at = heard = 0;
    made(device_new);
    made(server_new);
    for (n = 0; n < 10 && stage.request != FUOTA_REQUEST_STATUS; n++) {
        made(server_ask);
        radio();
        made(server_ledger);
    }
    for (pass = 0; pass < 2; pass++) {
        if (pass == 1)
            made(server_new);
        for (n = 1; made(server_next_fragment), answer == FUOTA_DONE; n++)
            if (hears(campaign, pass, n))
                radio();
        made(server_status_all);
        radio();
        made(server_last_status);
        made(server_fragment_number);
        made(server_frame_count);
        made(server_save);
        made(server_restore);
    }
    made(device_wake);
    made(device_view);
    made(device_file);
    made(device_running);
    made(device_radio);
    made(device_counts);
    made(device_next);
    made(device_raise);
    made(mc_app_s_key);
    made(mc_net_s_key);
    made(frag_session_delete);
    made(mc_group_delete);
    made(dev_delete_image);
    made(force_device_resync);
    made(library_version);
    made(library_pointer_bits);
    made(device_save);
    made(device_firmware);
    made(device_restore);
    made(device_new_in_flash);
    made(device_power);
    made(device_deliver);
    made(device_save);
    made(device_flash);
    made(device_restore_in_flash);
    made(device_power);
    printf("campaign %d: verdict %d, %d pieces missing, the longest deliver is number %d: %.3f ms\n", campaign,
           view.verdict, view.missing, longest_at, longest / 1e6);
    made(server_free);
    made(device_free);
    stage.request = 0;
}

static void receive(void) {
    int n;
    setup.nb_frag = (uint16_t)((small_length + 47) / 48);
    setup.padding = (uint8_t)(setup.nb_frag * 48u - small_length);
    made(receiver_new);
    made(receiver_set_up);
    made(small_server_new);
    for (n = 1; made(server_next_fragment), answer == FUOTA_DONE; n++)
        if (made(server_frame), n > setup.nb_frag || n % 16)
            made(receiver_hear);
    made(receiver_view);
    printf("receiver: verdict %d, %d pieces missing\n", view.verdict, view.missing);
    made(receiver_file);
    made(receiver_status);
    made(receiver_free);
    made(server_free);
}

static size_t read_file(const char *name, uint8_t *into, size_t room) {
    FILE *source = fopen(name, "rb");
    size_t length = source ? fread(into, 1, room, source) : 0;
    if (source)
        fclose(source);
    return length;
}

int main(int argc, char **argv) {
    int campaign, only = argc > 3 ? atoi(argv[3]) : -1;
    size_t i;
    most = argc > 4 ? atoi(argv[4]) : -1;
    if (argc < 3 || !(image_length = read_file(argv[1], image, sizeof image)) ||
        !(small_length = read_file(argv[2], small, sizeof small)))
        return 1;
    made(nothing);
    for (campaign = 0; campaign < 3; campaign++)
        if (only < 0 || campaign == only)
            play(campaign);
    receive();
    for (i = 1; i < CALLS; i++)
        printf("%s %d\n", calls[i].name, (int)(calls[i].most - calls[0].most));
    return 0;
}
