/* Bytes of any value and length under keys of a table that has nothing else. */
#include "check.h"

enum { MOST = 16384 };

static uint8_t bytes[MOST + 1], room[MOST + 1];

/* The bytes of a length: all values, in an order that differs from length to length. */
static const uint8_t *drawn(size_t size) {
    for (size_t i = 0; i < size; i++) bytes[i] = (uint8_t)(i * 167 + size);
    return bytes;
}

static void reads(mars *m, uint64_t key, size_t size) {
    uint64_t len = 0;
    OK(mars_bytes_length(m, 0, MAIN, key, &len));
    IS(len, size);
    memset(room, 0xee, sizeof room);
    OK(mars_get_bytes(m, 0, MAIN, key, room, sizeof room, &len));
    HOLDS(len == size && memcmp(room, drawn(size), size) == 0 && room[size] == 0xee);
}

static void sizes(mars *m) {
    static const size_t all[] = {0, 1, 39, 40, 41, 79, 80, 81, 255, 256, 1000, MOST - 1, MOST};
    uint64_t n;
    for (size_t i = 0; i < sizeof all / sizeof *all; i++) {
        OK(mars_begin(m, 0));
        OK(mars_put_bytes(m, 0, MAIN, 7, drawn(all[i]), all[i]));
        reads(m, 7, all[i]);
        OK(mars_commit(m, 0, &n));
        drain(m);
    }
}

static void keys(mars *m) {
    uint64_t n, len, last = ((uint64_t)1 << 55) - 1;
    OK(mars_begin(m, 0));
    OK(mars_put_bytes(m, 0, MAIN, 7, drawn(50), 50));
    OK(mars_put_bytes(m, 0, MAIN, 8, drawn(60), 60));
    OK(mars_put_bytes(m, 0, MAIN, last, drawn(70), 70));
    reads(m, 7, 50);
    memset(room, '-', 60);
    OK(mars_get_bytes(m, 0, MAIN, 8, room, 3, &len));
    HOLDS(len == 60 && memcmp(room, drawn(60), 3) == 0 && room[3] == '-');
    OK(mars_del_bytes(m, 0, MAIN, 7));
    IS(mars_del_bytes(m, 0, MAIN, 7), MARS_ABSENT);
    len = 5;
    IS(mars_get_bytes(m, 0, MAIN, 7, room, 3, &len), MARS_ABSENT);
    IS(mars_bytes_length(m, 0, MAIN, 7, &len), MARS_ABSENT);
    IS(len, 5);
    reads(m, 8, 60);
    reads(m, last, 70);
    OK(mars_commit(m, 0, &n));
}

static void refused(mars *m) {
    uint64_t len;
    IS(mars_put_bytes(m, 0, MAIN, 1, bytes, 1), MARS_NO_TRANSACTION);
    OK(mars_begin(m, 0));
    IS(mars_put_bytes(m, 0, MAIN, 8, bytes, MOST + 1), MARS_TOO_LONG);
    IS(mars_put_bytes(m, 0, MAIN, (uint64_t)1 << 55, bytes, 1), MARS_BAD_KEY);
    IS(mars_get_bytes(m, 0, MAIN, (uint64_t)1 << 55, room, 1, &len), MARS_BAD_KEY);
    IS(mars_del_bytes(m, 0, MAIN, UINT64_MAX), MARS_BAD_KEY);
    IS(mars_put_bytes(m, 9, MAIN, 1, bytes, 1), MARS_BAD_CALLER);
    IS(mars_put_bytes(m, 0, TEXT("none"), 1, bytes, 1), MARS_NO_TABLE);
    IS(mars_put_bytes(m, 0, TEXT("NONE"), 1, bytes, 1), MARS_BAD_NAME);
    OK(mars_put(m, 0, MAIN, 512, TEXT("nonsense")));
    IS(mars_bytes_length(m, 0, MAIN, 1, &len), MARS_BROKEN);
    IS(mars_get_bytes(m, 0, MAIN, 2, room, 1, &len), MARS_ABSENT);
    OK(mars_abort(m, 0));
}

/* A put with no room in the log goes back to the save that it made, and so does one with no save to make. */
static void undone(mars *m) {
    uint64_t save = 0;
    OK(mars_begin(m, 0));
    OK(mars_put_bytes(m, 0, MAIN, 9, drawn(9000), 9000));
    OK(mars_put_bytes(m, 0, MAIN, 10, drawn(100), 100));
    IS(mars_put_bytes(m, 0, MAIN, 10, drawn(MOST), MOST), MARS_LOG_FULL);
    reads(m, 9, 9000);
    reads(m, 10, 100);
    OK(mars_save(m, 0, &save));
    IS(save, 4);
    while (save < 32) OK(mars_save(m, 0, &save));
    IS(mars_put_bytes(m, 0, MAIN, 10, drawn(1), 1), MARS_SAVES_FULL);
    IS(mars_del_bytes(m, 0, MAIN, 10), MARS_SAVES_FULL);
    reads(m, 10, 100);
    OK(mars_abort(m, 0));
}

/* The next piece of the tape, done on the device. */
static bool do_piece(mars *m, uint8_t *device) {
    uint64_t at, len;
    int32_t kind = mars_piece(m, &at, &len);
    if (kind == MARS_WRITE) OK(mars_piece_bytes(m, 0, device + at, len, &len));
    if (kind != MARS_NOTHING) OK(mars_piece_done(m));
    return kind != MARS_NOTHING;
}

/* How many bytes are under key 8 where power is lost now: they are just those that were put. */
static uint64_t left(const uint8_t *device, uint64_t size) {
    mars m = MARS_CLOSED;
    uint64_t len;
    OK(mars_open(&m, device, size, 1));
    OK(mars_begin(&m, 0));
    OK(mars_bytes_length(&m, 0, MAIN, 8, &len));
    reads(&m, 8, len);
    mars_close(&m);
    return len;
}

/* The commit of other bytes leaves the old ones or the new ones, wherever it is cut off. */
static void cut_off(mars *m, uint8_t *device, uint64_t size) {
    uint64_t n, was = 60;
    while (do_piece(m, device)) continue;
    IS(left(device, size), 60);
    OK(mars_begin(m, 0));
    OK(mars_put_bytes(m, 0, MAIN, 8, drawn(500), 500));
    OK(mars_commit(m, 0, &n));
    while (do_piece(m, device)) {
        uint64_t is = left(device, size);
        HOLDS(is == was || is == 500);
        was = is;
    }
    IS(was, 500);
}

int main(void) {
    uint64_t size;
    uint8_t *device = fresh(&size, 8, 1, 64, 128);
    mars m = MARS_CLOSED;
    OK(mars_open(&m, device, size, 1));
    sizes(&m);
    mars_close(&m);
    OK(mars_open(&m, device, size, 1));
    keys(&m);
    refused(&m);
    undone(&m);
    cut_off(&m, device, size);
    mars_close(&m);
    free(device);
    printf("long bytes: as they were put\n");
}
