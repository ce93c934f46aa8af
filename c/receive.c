/* A file of 5 bytes in 3 pieces of 2, of which the second is lost and a coded fragment makes it good. */
#include "fuota.h"
#include <stdio.h>

int main(void) {
    static const uint8_t payloads[3][5] = {
        {0x08, 0x01, 0x00, 0x11, 0x22},  /* piece 1 */
        {0x08, 0x03, 0x00, 0x55, 0x00},  /* piece 3, with a byte of padding */
        {0x08, 0x04, 0x00, 0x33, 0x44}}; /* a coded fragment, which is piece 2 alone */
    const fuota_setup setup = {.descriptor = 7, .nb_frag = 3, .frag_size = 2, .padding = 1};
    fuota_receiver receiver = FUOTA_RECEIVER_NONE;
    fuota_view view = {0};
    uint8_t file[8];
    size_t count, i;
    if (fuota_receiver_new(&receiver, FUOTA_SIZE_SMALL) != FUOTA_DONE || fuota_receiver_set_up(&receiver, &setup) != 0)
        return 1;
    for (i = 0; i < 3 && view.verdict == FUOTA_RECEIVING; i++) {
        fuota_receiver_hear(&receiver, payloads[i], sizeof payloads[i], i + 1);
        fuota_receiver_view(&receiver, &view);
        printf("received %d missing %d\n", view.received, view.missing);
    }
    if (view.verdict != FUOTA_COMPLETE)
        return 2;
    printf("complete at %d:", (int)view.mark);
    count = fuota_receiver_file(&receiver, 0, file, sizeof file);
    for (i = 0; i < count; i++)
        printf(" %02x", file[i]);
    printf("\n");
    fuota_receiver_free(&receiver);
    return 0;
}
