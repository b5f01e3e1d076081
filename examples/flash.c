/* The array alone on a device of one's own, here memory that loses its power: at each piece of a commit of two writes, with that piece half done.
 * What is found afterwards are the old bytes at both places or the new ones.
 *
 *     cc -Idist examples/flash.c dist/libmars_array.a -o flash
 *     ./flash
 */
#include "mars_array.h"
#include <stdio.h>
#include <string.h>

enum { SIZE = 11040, LEFT = 100, RIGHT = 1500, LEN = 8 };

static uint8_t flash[SIZE], saved[SIZE];

/* Does the next piece on the device: the first half of it if power is lost meanwhile. */
static void do_piece(mars_array *a, uint64_t at, uint64_t len, bool is_lost) {
    uint8_t room[64];
    uint64_t left, end = is_lost ? len / 2 : len;
    for (uint64_t skip = 0; skip < end; skip += sizeof room) {
        size_t count = end - skip < sizeof room ? (size_t)(end - skip) : sizeof room;
        mars_array_piece_bytes(a, skip, room, count, &left);
        memcpy(flash + at + skip, room, count);
    }
}

/* Takes the tape down until power is lost, at the piece of this number. Returns whether it was. A barrier has nothing to do here. */
static bool is_lost_at(mars_array *a, int piece) {
    uint64_t at = 0, len = 0;
    int32_t kind;
    for (; (kind = mars_array_piece(a, &at, &len)) != MARS_ARRAY_NOTHING; piece--) {
        if (kind == MARS_ARRAY_WRITE) do_piece(a, at, len, piece == 0);
        if (piece == 0) return true;
        mars_array_piece_done(a);
    }
    return false;
}

/* Logs both writes under the number 0, and commits them. */
static bool commit(mars_array *a, const char *bytes) {
    uint64_t parts;
    return mars_array_log_write(a, 0, LEFT, (const uint8_t *)bytes, LEN, &parts) == MARS_ARRAY_OK &&
           mars_array_log_write(a, 0, RIGHT, (const uint8_t *)bytes, LEN, &parts) == MARS_ARRAY_OK && mars_array_commit(a, 0) == MARS_ARRAY_OK;
}

/* Whether these bytes are found at both places. */
static bool finds(mars_array *a, const char *bytes) {
    uint8_t left[LEN], right[LEN];
    return mars_array_read(a, LEFT, left, LEN) == MARS_ARRAY_OK && mars_array_read(a, RIGHT, right, LEN) == MARS_ARRAY_OK &&
           memcmp(left, bytes, LEN) == 0 && memcmp(right, bytes, LEN) == 0;
}

int main(void) {
    mars_array a = MARS_ARRAY_CLOSED;
    int olds = 0, news = 0;
    if (mars_array_size(1, 2, 8, 4) != SIZE || mars_array_format(flash, SIZE, 1, 2, 8, 4) != MARS_ARRAY_OK) return 1;
    if (mars_array_open(&a, flash, SIZE, 0) != MARS_ARRAY_OK || !commit(&a, "old text") || is_lost_at(&a, -1)) return 1;
    mars_array_close(&a);
    memcpy(saved, flash, SIZE);
    for (bool is_lost = true; is_lost; mars_array_close(&a)) {
        memcpy(flash, saved, SIZE);
        if (mars_array_open(&a, flash, SIZE, 0) != MARS_ARRAY_OK || !commit(&a, "new text")) return 1;
        is_lost = is_lost_at(&a, olds + news);
        mars_array_close(&a);
        if (mars_array_open(&a, flash, SIZE, 0) != MARS_ARRAY_OK || is_lost_at(&a, -1)) return 1;
        if (finds(&a, "old text")) olds++;
        else if (finds(&a, "new text")) news++;
        else return 1;
    }
    printf("old %d times, new %d times\n", olds, news);
    return 0;
}
