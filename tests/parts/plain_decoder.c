/* A decoder of fragments in plain C, for comparison alone: what it costs, and what it decides. It was written from
 * TS004-1.0.0, with one session, and nothing is proved of it. */
#include "decoder.h"

#include <string.h>

#define WORDS (PIECES / 32)

static uint8_t file[PIECES * SIZE], data[ROWS][SIZE];
static uint32_t row[ROWS][WORDS], have[WORDS];
static uint16_t lead[ROWS], nb_frag, missing, heard;
static uint8_t frag_size, padding, rows, verdict;
static uint32_t decided;

static bool get(const uint32_t *bits, uint32_t i) { return bits[i >> 5] >> (i & 31) & 1; }

static void put(uint32_t *bits, uint32_t i) { bits[i >> 5] |= 1u << (i & 31); }

/* (a processor that takes words at any place makes two loads, a sum and a store of these) */
static void add(uint8_t *into, const uint8_t *from, unsigned size) {
    for (; size >= 4; size -= 4, into += 4, from += 4) {
        uint32_t a, b;
        memcpy(&a, into, 4);
        memcpy(&b, from, 4);
        a ^= b;
        memcpy(into, &a, 4);
    }
    while (size--)
        *into++ ^= *from++;
}

/* The line of a coded fragment. */
static void draw_line(uint32_t n, uint32_t *bits) {
    uint32_t x = 1 + 1001 * n, m = nb_frag, modulus = m + ((m & (m - 1)) == 0), count;
    memset(bits, 0, sizeof have);
    for (count = 0; count < m / 2; count++) {
        uint32_t r;
        do {
            x = (x >> 1) | ((((x >> 5) ^ x) & 1) << 22);
            r = x % modulus;
        } while (r >= m);
        put(bits, r);
    }
}

static void reduce_by_pieces(uint32_t *bits, uint8_t *sum) {
    unsigned w;
    for (w = 0; w < WORDS; w++) {
        uint32_t both = bits[w] & have[w];
        bits[w] ^= both;
        for (; both; both &= both - 1)
            add(sum, file + (w * 32 + (unsigned)__builtin_ctz(both)) * frag_size, frag_size);
    }
}

static void reduce_by_rows(uint32_t *bits, uint8_t *sum) {
    unsigned r, w;
    for (r = 0; r < rows; r++)
        if (get(bits, lead[r])) {
            for (w = 0; w < WORDS; w++)
                bits[w] ^= row[r][w];
            add(sum, data[r], frag_size);
        }
}

static int first(const uint32_t *bits) {
    unsigned w;
    for (w = 0; w < WORDS; w++)
        if (bits[w])
            return (int)(w * 32 + (unsigned)__builtin_ctz(bits[w]));
    return -1;
}

static bool is_zero(const uint8_t *sum) {
    unsigned i;
    for (i = 0; i < frag_size; i++)
        if (sum[i])
            return false;
    return true;
}

/* Puts what a line and its sum say into a row, whose lead no row before it has; nothing where they say nothing new. */
static void insert(uint32_t *bits, uint8_t *sum) {
    int at;
    reduce_by_pieces(bits, sum);
    reduce_by_rows(bits, sum);
    reduce_by_pieces(bits, sum); /* (rows may have pieces that came after them) */
    at = first(bits);
    if (at < 0) {
        if (!is_zero(sum))
            verdict = CONFLICT;
    } else if (rows == ROWS) {
        verdict = NO_ROWS;
    } else {
        memcpy(row[rows], bits, sizeof row[rows]);
        memcpy(data[rows], sum, frag_size);
        lead[rows++] = (uint16_t)at;
        missing--;
    }
}

/* The row that leads with a piece gives way to it, and says less then. */
static void give_way(uint16_t piece) {
    uint32_t bits[WORDS];
    uint8_t sum[SIZE];
    unsigned r;
    for (r = 0; r < rows && lead[r] != piece;)
        r++;
    if (r == rows)
        return;
    memcpy(bits, row[r], sizeof bits);
    memcpy(sum, data[r], frag_size);
    for (rows--; r < rows; r++) {
        memcpy(row[r], row[r + 1], sizeof row[r]);
        memcpy(data[r], data[r + 1], frag_size);
        lead[r] = lead[r + 1];
    }
    missing++;
    insert(bits, sum);
}

static void finish(void) {
    unsigned r = rows;
    while (r--) {
        reduce_by_pieces(row[r], data[r]);
        memcpy(file + lead[r] * frag_size, data[r], frag_size);
        put(have, lead[r]);
    }
    verdict = COMPLETE;
}

static void hear_piece(uint16_t piece, const uint8_t *bytes) {
    if (get(have, piece)) {
        if (memcmp(file + piece * frag_size, bytes, frag_size))
            verdict = CONFLICT;
        return;
    }
    put(have, piece);
    memcpy(file + piece * frag_size, bytes, frag_size);
    missing--;
    give_way(piece);
}

static void hear_coded(uint16_t n, const uint8_t *bytes) {
    uint32_t bits[WORDS];
    uint8_t sum[SIZE];
    draw_line(n, bits);
    memcpy(sum, bytes, frag_size);
    insert(bits, sum);
}

bool decoder_begin(void) { return true; }

void decoder_end(void) {}

bool decoder_set_up(uint16_t pieces, uint8_t size, uint8_t zeros) {
    memset(have, 0, sizeof have);
    nb_frag = missing = pieces;
    frag_size = size;
    padding = zeros;
    heard = rows = verdict = 0;
    decided = 0;
    return true;
}

void decoder_hear(const uint8_t *payload, uint8_t length, uint32_t mark) {
    uint16_t n = (uint16_t)(payload[1] | (payload[2] & 0x3F) << 8);
    if (n == 0 || length != 3 + frag_size)
        return;
    heard++;
    if (verdict != RECEIVING)
        return;
    if (n <= nb_frag)
        hear_piece((uint16_t)(n - 1), payload + 3);
    else
        hear_coded((uint16_t)(n - nb_frag), payload + 3);
    if (verdict == RECEIVING && missing == 0)
        finish();
    if (verdict != RECEIVING)
        decided = mark;
}

void decoder_show(shown *out) {
    out->received = heard;
    out->missing = verdict == COMPLETE ? 0 : missing;
    out->verdict = verdict;
    out->mark = decided;
}

uint32_t decoder_file(uint32_t offset, uint8_t *into, uint32_t room) {
    uint32_t length = verdict == COMPLETE ? (uint32_t)nb_frag * frag_size - padding : 0;
    uint32_t count = offset < length ? length - offset : 0;
    count = count < room ? count : room;
    memcpy(into, file + offset, count);
    return count;
}
