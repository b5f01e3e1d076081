/* What the tests of mars.h share. */
#include "mars.h"
#include <stdio.h>
#include <stdlib.h>
#include <string.h>

#define TEXT(t) (const uint8_t *)(t), strlen(t)
#define MAIN TEXT("main")

static const char *say(int32_t status) {
    static char room[100];
    uint64_t len;
    mars_text(status, (uint8_t *)room, sizeof room - 1, &len);
    room[len < sizeof room ? len : sizeof room - 1] = 0;
    return room;
}

#define IS(call, want)                                                                                                  \
    do {                                                                                                                \
        int64_t got_ = (int64_t)(call), want_ = (int64_t)(want);                                                        \
        if (got_ != want_) {                                                                                            \
            printf("%s:%d: %s is %lld (%s), not %lld\n", __FILE__, __LINE__, #call, (long long)got_, say((int32_t)got_), \
                   (long long)want_);                                                                                   \
            exit(1);                                                                                                    \
        }                                                                                                               \
    } while (0)
#define OK(call) IS(call, MARS_OK)
#define HOLDS(fact) IS(!!(fact), 1)

/* The bytes of a fresh array of this shape, which are the caller's to free. */
static inline uint8_t *fresh(uint64_t *size, uint8_t loggers, uint8_t callers, uint16_t entries, uint32_t pages) {
    *size = mars_size(loggers, callers, entries, pages);
    HOLDS(*size > 0);
    uint8_t *bytes = calloc(1, *size);
    HOLDS(bytes != NULL);
    OK(mars_format(bytes, *size, loggers, callers, entries, pages));
    return bytes;
}

/* Puts a decimal number. */
static inline int32_t put_number(mars *m, uint8_t caller, uint64_t key, uint64_t n) {
    char text[24];
    int len = snprintf(text, sizeof text, "%llu", (unsigned long long)n);
    return mars_put(m, caller, MAIN, key, (const uint8_t *)text, (size_t)len);
}

/* The number under a key, or -1. */
static inline int64_t number_at(mars *m, uint8_t caller, uint64_t key) {
    uint8_t room[55] = {0};
    uint64_t len;
    int32_t status = mars_get(m, caller, MAIN, key, room, 54, &len);
    if (status == MARS_ABSENT) return -1;
    OK(status);
    return atoll((char *)room);
}

/* Takes the whole tape down, onto nothing, and tells how many pieces it had. */
static inline int drain(mars *m) {
    uint64_t at, len;
    int pieces = 0;
    for (; mars_piece(m, &at, &len) != MARS_NOTHING; pieces++) OK(mars_piece_done(m));
    IS(mars_done_up_to(m), mars_moment(m));
    return pieces;
}
