/* An array on a device of one's own: here 128 KB of memory in blocks of 512 bytes, which are written whole.
 *
 *     cc -Idist -DMARS_NO_FILES examples/device.c dist/libmars.a -o device
 *     ./device
 */
#include "mars.h"
#include <stdio.h>
#include <stdlib.h>
#include <string.h>

enum { BLOCK = 512, BLOCKS = 256 };

static uint8_t flash[BLOCKS][BLOCK];

/* What a driver has: each answers whether it was done. */
static bool read_block(uint64_t block, uint8_t *to) {
    memcpy(to, flash[block], BLOCK);
    return true;
}

static bool write_block(uint64_t block, const uint8_t *from) {
    memcpy(flash[block], from, BLOCK);
    return true;
}

static bool flush(void) {
    return true;
}

/* Writes bytes at a place within a block, of which the others have to stay, after a loss of power too. So the device owes that it writes a block
 * whole or not at all. */
static bool write_within(uint64_t at, const uint8_t *bytes, uint64_t len) {
    uint8_t block[BLOCK];
    if (!read_block(at / BLOCK, block)) return false;
    memcpy(block + at % BLOCK, bytes, len);
    return write_block(at / BLOCK, block);
}

static bool write_piece(mars *m, uint64_t at, uint64_t len) {
    uint8_t room[BLOCK];
    uint64_t left;
    for (uint64_t skip = 0; skip < len;) {
        uint64_t count = BLOCK - (at + skip) % BLOCK;
        if (mars_piece_bytes(m, skip, room, count, &left) != MARS_OK) return false;
        if (count > left) count = left;
        if (!write_within(at + skip, room, count)) return false;
        skip += count;
    }
    return true;
}

/* Takes the tape down. After a failure the array is closed, and opened anew from what the device holds. */
static bool sync_all(mars *m) {
    uint64_t at = 0, len = 0;
    int32_t kind;
    while ((kind = mars_piece(m, &at, &len)) != MARS_NOTHING) {
        bool done = kind == MARS_WRITE ? write_piece(m, at, len) : flush();
        if (!done) {
            mars_piece_failed(m);
            return false;
        }
        mars_piece_done(m);
    }
    return true;
}

static uint8_t *read_all(uint64_t size) {
    uint8_t *bytes = malloc(BLOCKS * BLOCK);
    bool done = bytes && size <= BLOCKS * BLOCK;
    for (uint64_t block = 0; done && block < BLOCKS; block++) done = read_block(block, bytes + block * BLOCK);
    if (done) return bytes;
    free(bytes);
    return NULL;
}

/* Opens what the device holds, or a fresh array if that is none. */
static int32_t open_device(mars *m) {
    uint64_t size = mars_size(1, 2, 64, 64);
    uint8_t *bytes = read_all(size);
    if (!bytes) return MARS_FILE;
    int32_t status = mars_open(m, bytes, size, 1);
    if (status == MARS_NOT_MARS) {
        status = mars_format(bytes, size, 1, 2, 64, 64);
        for (uint64_t block = 0; status == MARS_OK && block * BLOCK < size; block++)
            if (!write_block(block, bytes + block * BLOCK)) status = MARS_FILE;
        if (status == MARS_OK && !flush()) status = MARS_FILE;
        if (status == MARS_OK) status = mars_open(m, bytes, size, 1);
    }
    free(bytes);
    return status == MARS_OK && !sync_all(m) ? MARS_FILE : status;
}

/* Puts a value as one transaction, which is durable once this has answered. */
static bool put_one(mars *m, uint64_t key, const char *value) {
    uint64_t number;
    if (mars_begin(m, 0) != MARS_OK) return false;
    if (mars_put(m, 0, (const uint8_t *)"main", 4, key, (const uint8_t *)value, strlen(value)) != MARS_OK) return false;
    return mars_commit(m, 0, &number) == MARS_OK && sync_all(m);
}

int main(void) {
    mars m = MARS_CLOSED;
    uint8_t value[54];
    uint64_t len = 0;
    if (open_device(&m) != MARS_OK || !put_one(&m, 5, "abc")) return 1;
    mars_close(&m);
    if (open_device(&m) != MARS_OK || mars_begin(&m, 0) != MARS_OK) return 1;
    if (mars_get(&m, 0, (const uint8_t *)"main", 4, 5, value, sizeof value, &len) != MARS_OK) return 1;
    printf("%.*s, durable up to moment %llu\n", (int)len, (char *)value, (unsigned long long)mars_done_up_to(&m));
    mars_close(&m);
    return 0;
}
