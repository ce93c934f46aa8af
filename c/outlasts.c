/* A device that outlasts its process: after each payload all that it has goes into a file, and for each payload it is made
 * again of that file, as if the process were a new one. The same file of 5 bytes in 3 pieces of 2 as in receive.c. */
#include "fuota.h"
#include <stdio.h>
#include <string.h>

/* Four sessions in ranges of 30,000 bytes. FUOTA_LONGEST_SPAN has room for each session that a device takes. */
enum { SPAN = 30000, FLASH = 4 * SPAN, AREA = 4096 };

/* What a device has, which goes to the file and comes from it whole. A program of one machine writes it as it is. */
static struct {
    uint8_t saved[FUOTA_SAVED_DEVICE], running[AREA], next[AREA], flash[FLASH];
    size_t running_length, next_length;
} kept;

static const fuota_config config = {.hw = 1, .area = AREA, .rows = 16, .formats = 2, .sessions = 1, .groups = 1,
                                    .is_class_c = true};

/* Puts what the device has into the file: into another one first, which then takes its place, so that a process that is
 * killed leaves the old or the new. Where power may fail, the file is synced before it is renamed. */
static bool keep(fuota_device *device, const char *path) {
    char other[256];
    FILE *file;
    bool good;
    if (strlen(path) + 5 > sizeof other)
        return false;
    strcat(strcpy(other, path), ".new");
    fuota_device_save(device, kept.saved, sizeof kept.saved);
    kept.running_length = fuota_device_firmware(device, false, 0, kept.running, AREA);
    kept.next_length = fuota_device_firmware(device, true, 0, kept.next, AREA);
    fuota_device_flash(device, 0, kept.flash, FLASH);
    file = fopen(other, "wb");
    if (!file)
        return false;
    good = fwrite(&kept, sizeof kept, 1, file) == 1;
    return fclose(file) == 0 && good && rename(other, path) == 0;
}

/* The device of the file, or a new one where there is no file; its sessions are opened. */
static fuota_result begin(fuota_device *device, const char *path) {
    FILE *file = fopen(path, "rb");
    fuota_result answer;
    if (!file) {
        answer = fuota_device_new_in_flash(device, FUOTA_SIZE_LARGE, &config, SPAN, kept.flash, FLASH);
    } else {
        if (fread(&kept, sizeof kept, 1, file) != 1 || kept.running_length > AREA || kept.next_length > AREA)
            memset(&kept, 0, sizeof kept); /* which is no device */
        fclose(file);
        answer = fuota_device_restore_in_flash(device, FUOTA_SIZE_LARGE, &config, SPAN, kept.flash, FLASH, kept.saved,
                                               sizeof kept.saved, kept.running, kept.running_length, kept.next, kept.next_length);
    }
    return answer == FUOTA_DONE ? fuota_device_power(device) : answer;
}

int main(int argc, char **argv) {
    static const uint8_t payloads[4][11] = {
        {0x02, 0x00, 0x03, 0x00, 0x02, 0x00, 0x01, 0x07, 0x00, 0x00, 0x00}, /* FragSessionSetupReq */
        {0x08, 0x01, 0x00, 0x11, 0x22},
        {0x08, 0x03, 0x00, 0x55, 0x00},
        {0x08, 0x04, 0x00, 0x33, 0x44}};
    fuota_view view = {0};
    fuota_uplink up;
    uint8_t file[8];
    size_t count, i;
    if (argc != 2)
        return 2;
    remove(argv[1]);
    for (i = 0; i < 4; i++) {
        const fuota_arrival arrival = {.t = 1000 * i, .mark = i};
        fuota_device device = FUOTA_DEVICE_NONE;
        if (begin(&device, argv[1]) != FUOTA_DONE)
            return 1;
        if (fuota_device_deliver(&device, 201, payloads[i], i ? 5 : 11, &arrival) != FUOTA_DONE)
            return 1;
        if (!keep(&device, argv[1]))
            return 1;
        /* only now what it answers goes out */
        while (fuota_device_take_uplink(&device, &up) == FUOTA_DONE)
            printf("uplink of %d bytes on port %d\n", (int)up.length, up.port);
        if (!keep(&device, argv[1]))
            return 1;
        fuota_device_view(&device, 0, &view);
        printf("received %d missing %d\n", view.received, view.missing);
        if (i == 3) {
            count = fuota_device_file(&device, 0, 0, file, sizeof file);
            printf("complete at %d:", (int)view.mark);
            for (i = 0; i < count; i++)
                printf(" %02x", file[i]);
            printf("\n");
        }
        fuota_device_free(&device);
    }
    return 0;
}
