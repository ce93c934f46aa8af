/* What the programs here take of a decoder of fragments (TS004), the proved one or that in plain C: at most 256
 * pieces of 48 bytes, and 16 rows. */
#ifndef DECODER_H
#define DECODER_H

#include <stdbool.h>
#include <stdint.h>

#define PIECES 256
#define SIZE 48
#define ROWS 16

enum { RECEIVING, COMPLETE, NO_ROWS, CONFLICT };

typedef struct shown {
    uint32_t received, missing, verdict, mark;
} shown;

bool decoder_begin(void);
void decoder_end(void);
bool decoder_set_up(uint16_t pieces, uint8_t size, uint8_t padding);
void decoder_hear(const uint8_t *payload, uint8_t length, uint32_t mark);
void decoder_show(shown *out);
uint32_t decoder_file(uint32_t offset, uint8_t *into, uint32_t room);

#endif
