/* The program `fuota` as a call: the words of its command line over the files that they name, read into memory before.
 * Build it as docs/SAMPLES.md says: cc -Ilibrary -o run c/run.c library/libfuota.a */
#include "fuota.h"
#include <stdio.h>
#include <stdlib.h>
#include <string.h>

/* The program takes no file of more bytes, so that one more tells that it is too long. */
enum { MOST_WORDS = 16, MOST_BYTES = 1048577 };

/* All bytes of a file, or one more than the program takes; false where it can't be read. */
static bool read_file(const char *name, uint8_t *into, fuota_length *length) {
    FILE *file = fopen(name, "rb");
    bool is_read;
    if (!file)
        return false;
    *length = fread(into, 1, MOST_BYTES, file);
    is_read = !ferror(file);
    fclose(file);
    return is_read;
}

int main(int argc, char **argv) {
    static uint8_t bytes[MOST_WORDS][MOST_BYTES];
    fuota_word words[MOST_WORDS];
    fuota_file files[MOST_WORDS];
    int k, count = 0, words_count = argc < MOST_WORDS ? argc : MOST_WORDS;
    fuota_length room = 1 << 20;
    fuota_ran ran = {0, 0};
    uint8_t *text = NULL;
    fuota_result answer;
    for (k = 0; k < words_count; k++) {
        words[k].bytes = fuota_at(argv[k]);
        words[k].bytes_length = strlen(argv[k]);
        if (k > 0 && read_file(argv[k], bytes[count], &files[count].bytes_length)) {
            files[count].name = words[k].bytes;
            files[count].name_length = words[k].bytes_length;
            files[count].bytes = fuota_at(bytes[count]);
            count++;
        }
    }
    do {
        free(text);
        text = malloc(room);
        answer = text ? fuota_run(words, (fuota_length)words_count, files, (fuota_length)count, text, room, &ran)
                      : FUOTA_NO_MEMORY;
        room = ran.length;
    } while (answer == FUOTA_NO_ROOM);
    if (answer == FUOTA_DONE)
        fwrite(text, 1, ran.length, stdout);
    free(text);
    return answer == FUOTA_DONE ? ran.status : FUOTA_EXIT_MEMORY;
}
