/* A device in memory on which pieces are done one by one: it loses power at each, with that piece torn, or it fails at one. Whatever it is left
 * with opens with the records of the first so many commits, and with all whose moment it had reached. */
#include "check.h"

enum { COMMITS = 12, KEYS = 3 };

static uint64_t seed = 88172645463325252u;

static uint64_t draw(void) {
    seed ^= seed << 13;
    seed ^= seed >> 7;
    return seed ^= seed << 17;
}

static int32_t put_commit(mars *m, uint64_t c) {
    uint64_t n;
    OK(mars_begin(m, 0));
    for (uint64_t key = 1; key <= KEYS; key++) {
        int32_t status = put_number(m, 0, key, c);
        if (status != MARS_OK) return status;
    }
    return mars_commit(m, 0, &n);
}

/* How many commits an image has: commit n put n under each of the keys. */
static int64_t commits_in(const uint8_t *image, size_t size) {
    mars m = MARS_CLOSED;
    OK(mars_open(&m, image, size, 1));
    OK(mars_begin(&m, 0));
    int64_t n = number_at(&m, 0, 1);
    for (uint64_t key = 1; key < KEYS; key++) IS(number_at(&m, 0, key + 1), n);
    mars_close(&m);
    return n < 0 ? 0 : n;
}

/* Does the next piece, if it is a write, by halves: each of its bytes is old, new, or anything. */
static void tear(mars *m, uint8_t *image, int32_t kind, uint64_t at, uint64_t len) {
    if (kind != MARS_WRITE) return;
    uint8_t *bytes = malloc(len);
    uint64_t all;
    OK(mars_piece_bytes(m, 0, bytes, len, &all));
    IS(all, len);
    for (uint64_t i = 0; i < len; i++) {
        uint64_t how = draw() % 3;
        if (how) image[at + i] = how == 1 ? bytes[i] : (uint8_t)draw();
    }
    free(bytes);
}

static void do_piece(mars *m, uint8_t *device, int32_t kind, uint64_t at, uint64_t len) {
    uint64_t all;
    if (kind == MARS_WRITE) OK(mars_piece_bytes(m, 0, device + at, len, &all));
    OK(mars_piece_done(m));
}

/* All commits are answered first, of which so many may wait, and then power is lost at each piece of the tape, four times. */
static int torn(const uint8_t *start, uint64_t size, uint8_t depth) {
    uint64_t moments[COMMITS + 1] = {0}, at, len;
    uint8_t *device = malloc(size), *image = malloc(size);
    int pieces = 0, least = 0;
    mars m = MARS_CLOSED;
    memcpy(device, start, size);
    OK(mars_open_late(&m, device, size, 1, depth));
    for (uint64_t c = 1; c <= COMMITS; c++) {
        OK(put_commit(&m, c));
        moments[c] = mars_moment(&m);
    }
    for (int32_t kind; (kind = mars_piece(&m, &at, &len)) != MARS_NOTHING; pieces++) {
        while (least < COMMITS && moments[least + 1] <= mars_done_up_to(&m)) least++;
        for (int i = 0; i < 4; i++) {
            memcpy(image, device, size);
            if (i > 0) tear(&m, image, kind, at, len);
            HOLDS(commits_in(image, size) >= least);
        }
        do_piece(&m, device, kind, at, len);
    }
    IS(commits_in(device, size), COMMITS);
    IS(mars_done_up_to(&m), mars_moment(&m));
    mars_close(&m);
    free(device);
    free(image);
    return pieces;
}

/* Each commit is taken down before the next one; the device fails at one piece, which it does by halves. Tells whether there was such a piece. */
static bool failed(const uint8_t *start, uint64_t size, int fails_at) {
    uint64_t at, len, done = 0;
    uint8_t *device = malloc(size);
    int32_t kind;
    bool has_failed = false;
    mars m = MARS_CLOSED;
    memcpy(device, start, size);
    OK(mars_open(&m, device, size, 1));
    for (int piece = 0; done < COMMITS && !has_failed; done += !has_failed) {
        OK(put_commit(&m, done + 1));
        while ((kind = mars_piece(&m, &at, &len)) != MARS_NOTHING) {
            if (piece++ == fails_at) {
                tear(&m, device, kind, at, len);
                OK(mars_piece_failed(&m));
                has_failed = true;
            } else {
                do_piece(&m, device, kind, at, len);
            }
        }
    }
    if (has_failed) {
        IS(put_commit(&m, done + 2), MARS_MEDIA);
        IS(mars_begin(&m, 0), MARS_DEAD);
    }
    int64_t found = commits_in(device, size);
    HOLDS(found == (int64_t)done || (has_failed && found == (int64_t)done + 1));
    mars_close(&m);
    free(device);
    return has_failed;
}

int main(void) {
    uint64_t size;
    uint8_t *start = fresh(&size, 2, 4, 32, 64);
    int pieces = torn(start, size, 0), late = torn(start, size, COMMITS / 2), at = 0;
    while (failed(start, size, at)) at++;
    free(start);
    printf("devices: %d pieces torn, %d where commits wait, %d failed\n", pieces, late, at);
    return at < pieces;
}
