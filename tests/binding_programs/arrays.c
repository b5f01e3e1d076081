/* The array alone: each call, each status that a caller can bring about, and a device that loses its power or fails at each piece. */
#include "mars_array.h"
#include <stdio.h>
#include <stdlib.h>
#include <string.h>

#define IS(call, want)                                                                                             \
    do {                                                                                                           \
        int64_t got_ = (int64_t)(call), want_ = (int64_t)(want);                                                   \
        if (got_ != want_) {                                                                                       \
            printf("%s:%d: %s is %lld, not %lld\n", __FILE__, __LINE__, #call, (long long)got_, (long long)want_); \
            exit(1);                                                                                               \
        }                                                                                                          \
    } while (0)
#define OK(call) IS(call, MARS_ARRAY_OK)
#define HOLDS(fact) IS(!!(fact), 1)
#define TEXT(t) (const uint8_t *)(t), strlen(t)

enum { SIZE = 512 + 2 * (16 * 3 + 528 * 3 * 8 + 512 * 6), DATA = 2 * 6 * 512 };

static uint8_t device[SIZE];

static void make(mars_array *a, uint8_t depth) {
    IS(mars_array_size(2, 3, 8, 6), SIZE);
    OK(mars_array_format(device, SIZE, 2, 3, 8, 6));
    OK(mars_array_open(a, device, SIZE, depth));
}

/* Whether the data has this text at an address. */
static bool has(mars_array *a, uint64_t at, const char *text) {
    uint8_t room[64];
    OK(mars_array_read(a, at, room, strlen(text)));
    return memcmp(room, text, strlen(text)) == 0;
}

static bool is_zero(mars_array *a, uint64_t at, size_t len) {
    static const uint8_t zeros[DATA];
    uint8_t room[DATA];
    OK(mars_array_read(a, at, room, len));
    return memcmp(room, zeros, len) == 0;
}

/* Does so many pieces of the tape on the device, or all if fewer are left. Of the next one it does so many bytes, if that is a write. It tells how
 * many were done. */
static int take_down(mars_array *a, int pieces, uint64_t torn) {
    uint64_t at, len, left;
    int done = 0;
    int32_t kind;
    for (; (kind = mars_array_piece(a, &at, &len)) != MARS_ARRAY_NOTHING && done <= pieces; done++) {
        if (done == pieces && torn < len) len = torn;
        if (kind == MARS_ARRAY_WRITE) OK(mars_array_piece_bytes(a, 0, device + at, len, &left));
        else IS(mars_array_piece_bytes(a, 0, device, 1, &left), MARS_ARRAY_NO_PIECE);
        if (done == pieces) break;
        OK(mars_array_piece_done(a));
    }
    return done;
}

static void logs(mars_array *a) {
    uint8_t room[512];
    uint64_t parts = 9, at = 9, len = 9;
    IS(mars_array_commit(a, 0), MARS_ARRAY_UNKNOWN);
    IS(mars_array_abort(a, 3), MARS_ARRAY_UNKNOWN);
    IS(mars_array_log_read(a, 0, 0, &at, room, 512, &len), MARS_ARRAY_UNKNOWN);
    OK(mars_array_log_write(a, 0, 510, TEXT("abcd"), &parts));
    IS(parts, 2);
    OK(mars_array_log_write(a, 0, 2000, TEXT("efgh"), &parts));
    IS(parts, 3);
    OK(mars_array_log_read(a, 0, 1, &at, room, 512, &len));
    HOLDS(at == 512 && len == 2 && memcmp(room, "cd", 2) == 0);
    IS(mars_array_log_read(a, 0, 3, &at, room, 512, &len), MARS_ARRAY_BAD_PART);
    OK(mars_array_log_edit(a, 0, 2, 1, TEXT("xyz")));
    memset(room, '-', 4);
    OK(mars_array_log_read(a, 0, 2, &at, room, 3, &len));
    HOLDS(at == 2000 && len == 4 && memcmp(room, "exy-", 4) == 0);
    IS(mars_array_log_edit(a, 0, 2, 1, TEXT("wxyz")), MARS_ARRAY_BAD_RANGE);
    IS(mars_array_log_edit(a, 0, 2, UINT32_MAX, TEXT("z")), MARS_ARRAY_BAD_RANGE);
    IS(mars_array_log_edit(a, 0, 3, 0, TEXT("z")), MARS_ARRAY_BAD_PART);
    IS(mars_array_log_edit(a, 1, 0, 0, TEXT("z")), MARS_ARRAY_UNKNOWN);
    HOLDS(is_zero(a, 0, DATA));
    IS(mars_array_nested_top(a, 0, 4), MARS_ARRAY_BAD_PART);
    OK(mars_array_nested_top(a, 0, 2));
    HOLDS(has(a, 2000, "exyz") && is_zero(a, 510, 4));
    IS(mars_array_partial_abort(a, 0, 3), MARS_ARRAY_BAD_PART);
    OK(mars_array_partial_abort(a, 0, 1));
    IS(mars_array_partial_abort(a, 3, 0), MARS_ARRAY_UNKNOWN);
    OK(mars_array_commit(a, 0));
    HOLDS(has(a, 510, "ab") && is_zero(a, 512, 2));
}

static void writes(mars_array *a) {
    static uint8_t pages[20 * 512];
    uint64_t parts = 9;
    IS(mars_array_len(a), DATA);
    IS(mars_array_log_write(a, 1, 0, TEXT(""), &parts), MARS_ARRAY_BAD_RANGE);
    IS(mars_array_log_write(a, 1, DATA - 1, TEXT("ab"), &parts), MARS_ARRAY_BAD_RANGE);
    IS(mars_array_log_write(a, 1, UINT64_MAX, TEXT("ab"), &parts), MARS_ARRAY_BAD_RANGE);
    IS(mars_array_log_write(a, 3, 0, TEXT("ab"), &parts), MARS_ARRAY_UNKNOWN);
    IS(mars_array_log_write(a, 255, 0, TEXT("ab"), &parts), MARS_ARRAY_UNKNOWN);
    IS(parts, 9);
    for (int i = 0; i < 8; i++) OK(mars_array_log_write(a, 1, 0, TEXT("a"), &parts));
    IS(parts, 8);
    IS(mars_array_log_write(a, 1, 0, TEXT("a"), &parts), MARS_ARRAY_LOG_FULL);
    OK(mars_array_log_write(a, 1, 512, TEXT("a"), &parts));
    IS(mars_array_atomic_write(a, 1, 0, TEXT("b")), MARS_ARRAY_IN_USE);
    OK(mars_array_abort(a, 1));
    IS(mars_array_atomic_write(a, 3, 0, TEXT("b")), MARS_ARRAY_UNKNOWN);
    IS(mars_array_atomic_write(a, 1, DATA, TEXT("b")), MARS_ARRAY_BAD_RANGE);
    OK(mars_array_atomic_write(a, 1, DATA - 1, TEXT("b")));
    HOLDS(has(a, DATA - 1, "b"));
    OK(mars_array_atomic_write(a, 1, 1, pages, MARS_ARRAY_WRITE_MAX));
    IS(mars_array_atomic_write(a, 1, 0, pages, DATA + 1), MARS_ARRAY_BAD_RANGE);
    IS(mars_array_read(a, DATA, pages, 1), MARS_ARRAY_BAD_RANGE);
    OK(mars_array_read(a, DATA, pages, 0));
    OK(mars_array_log_write(a, 0, 40, TEXT("low"), &parts));
    OK(mars_array_log_write(a, 2, 41, TEXT("high"), &parts));
    IS(mars_array_commit_group(a, 7), MARS_ARRAY_UNKNOWN);
    IS(mars_array_commit_group(a, 5 | (uint64_t)1 << 63), MARS_ARRAY_UNKNOWN);
    OK(mars_array_commit_group(a, 5));
    HOLDS(has(a, 40, "lhigh"));
    OK(mars_array_commit_group(a, 0));
}

/* What the library says of closed arrays, and of bytes that are none. */
static void openings(void) {
    mars_array a = MARS_ARRAY_CLOSED;
    uint64_t at = 9, len = 9;
    IS(mars_array_commit(&a, 0), MARS_ARRAY_IS_CLOSED);
    IS(mars_array_log_read(&a, 0, 0, &at, device, 1, &len), MARS_ARRAY_IS_CLOSED);
    IS(mars_array_piece_done(&a), MARS_ARRAY_IS_CLOSED);
    IS(mars_array_piece(&a, &at, &len), MARS_ARRAY_NOTHING);
    HOLDS(at == 9 && len == 9 && mars_array_moment(&a) == 0 && mars_array_done_up_to(&a) == 0 && mars_array_len(&a) == 0);
    mars_array_close(&a);
    memset(device, 0, SIZE);
    IS(mars_array_open(&a, device, SIZE, 0), MARS_ARRAY_NOT_MARS);
    IS(mars_array_open(&a, device, 0, 0), MARS_ARRAY_NOT_MARS);
    IS(mars_array_format(device, SIZE - 1, 2, 3, 8, 6), MARS_ARRAY_BAD_SHAPE);
    IS(mars_array_format(device, SIZE, 2, 65, 8, 6), MARS_ARRAY_BAD_SHAPE);
    IS(mars_array_size(2, 65, 8, 6), 0);
    make(&a, 64);
    IS(mars_array_open(&a, device, SIZE, 0), MARS_ARRAY_IS_OPEN);
    take_down(&a, 1000, 0);
    IS(mars_array_piece_done(&a), MARS_ARRAY_NO_PIECE);
    mars_array_close(&a);
    IS(mars_array_open(&a, device, SIZE, 65), MARS_ARRAY_BAD_DEPTH);
    IS(mars_array_open(&a, device, SIZE - 1, 0), MARS_ARRAY_BAD_SHAPE);
    mars_array_text(MARS_ARRAY_IN_USE, device, 10, &len);
    HOLDS(len > 10 && memcmp(device, "the number", 10) == 0);
    memset(device, '-', 4);
    mars_array_text(MARS_ARRAY_OK, device, 3, &len);
    HOLDS(len == 4 && memcmp(device, "don-", 4) == 0);
}

/* Power is lost at each piece of commits at a depth, and that piece is torn after so many bytes: the first so many commits are found, each whole. */
static void losses(uint8_t depth, uint64_t torn) {
    static const char *const texts[] = {"none", "left", "more", "last"};
    mars_array a = MARS_ARRAY_CLOSED;
    uint64_t parts;
    int before = 0;
    for (int pieces = 0;; pieces++) {
        make(&a, depth);
        take_down(&a, 1000, 0);
        for (int i = 1; i < 4; i++) {
            OK(mars_array_log_write(&a, i % 3, 100, TEXT(texts[i]), &parts));
            OK(mars_array_log_write(&a, i % 3, 5000, TEXT(texts[i]), &parts));
            OK(mars_array_commit(&a, i % 3));
        }
        int done = take_down(&a, pieces, torn);
        if (done < pieces) IS(mars_array_done_up_to(&a), mars_array_moment(&a));
        mars_array_close(&a);
        OK(mars_array_open(&a, device, SIZE, depth));
        take_down(&a, 1000, 0);
        int found = 0;
        for (int i = 1; i < 4; i++)
            if (has(&a, 100, texts[i])) found = i;
        if (found) HOLDS(has(&a, 5000, texts[found]));
        else HOLDS(is_zero(&a, 100, 4) && is_zero(&a, 5000, 4));
        HOLDS(found >= before);
        before = found;
        mars_array_close(&a);
        if (done < pieces) break;
    }
    IS(before, 3);
}

/* A piece fails: nothing more is written, and the next opening finds the data. */
static void failure(void) {
    mars_array a = MARS_ARRAY_CLOSED;
    uint64_t at, len, parts;
    make(&a, 0);
    OK(mars_array_atomic_write(&a, 0, 7, TEXT("kept")));
    take_down(&a, 1000, 0);
    OK(mars_array_log_write(&a, 0, 7, TEXT("lost"), &parts));
    OK(mars_array_piece_failed(&a));
    IS(mars_array_piece(&a, &at, &len), MARS_ARRAY_NOTHING);
    IS(mars_array_commit(&a, 0), MARS_ARRAY_MEDIA);
    IS(mars_array_commit(&a, 0), MARS_ARRAY_DEAD);
    mars_array_close(&a);
    OK(mars_array_open(&a, device, SIZE, 0));
    HOLDS(has(&a, 7, "kept"));
    mars_array_close(&a);
}

int main(void) {
    mars_array a = MARS_ARRAY_CLOSED;
    openings();
    for (int depth = 0; depth <= 64; depth += 32) {
        make(&a, (uint8_t)depth);
        logs(&a);
        mars_array_close(&a);
        make(&a, (uint8_t)depth);
        writes(&a);
        mars_array_close(&a);
        for (uint64_t torn = 0; torn < 24; torn += 5) losses((uint8_t)depth, torn);
    }
    failure();
    return 0;
}
