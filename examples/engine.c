/* An engine over mars.h: accounts in a file, of which 0 pays 1 a coin at each run.
 *
 *     cc -Idist examples/engine.c dist/libmars.a -o engine
 *     ./engine bank
 */
#include "mars.h"
#include <stdio.h>
#include <string.h>

#define TABLE (const uint8_t *)"main", 4

static int32_t put(mars *m, uint64_t account, long coins) {
    char text[24];
    int len = snprintf(text, sizeof text, "%ld", coins);
    return mars_put(m, 0, TABLE, account, (const uint8_t *)text, (size_t)len);
}

/* What an account has: 100 where nothing was said of it. */
static int32_t get(mars *m, uint64_t account, long *coins) {
    char text[55] = {0};
    uint64_t len = 0;
    int32_t status = mars_get(m, 0, TABLE, account, (uint8_t *)text, 54, &len);
    *coins = status == MARS_OK ? atol(text) : 100;
    return status == MARS_ABSENT ? MARS_OK : status;
}

static int32_t pay(mars *m, uint64_t from, uint64_t to, long coins) {
    long has, had;
    int32_t status = get(m, from, &has);
    if (status == MARS_OK) status = get(m, to, &had);
    if (status == MARS_OK) status = put(m, from, has - coins);
    if (status == MARS_OK) status = put(m, to, had + coins);
    if (status == MARS_OK) printf("%ld and %ld\n", has - coins, had + coins);
    return status;
}

/* A transaction of caller 0, which is durable once this has answered MARS_OK. */
static int32_t transfer(mars_file *f) {
    uint64_t number;
    int32_t status = mars_begin(&f->m, 0);
    if (status != MARS_OK) return status;
    status = pay(&f->m, 0, 1, 1);
    if (status == MARS_OK) status = mars_commit(&f->m, 0, &number);
    if (status == MARS_OK) return mars_sync(f);
    mars_abort(&f->m, 0);
    return status;
}

static int32_t open_bank(mars_file *f, const char *path) {
    int32_t status = mars_open_file(f, path, 1);
    if (status == MARS_FILE && errno == ENOENT) {
        status = mars_make_file(path, 1, 8, 64, 64);
        if (status == MARS_OK) status = mars_open_file(f, path, 1);
    }
    return status;
}

int main(int argc, char **argv) {
    mars_file f = {MARS_CLOSED, -1, false};
    uint8_t text[100];
    uint64_t len = 0;
    int32_t status = open_bank(&f, argc > 1 ? argv[1] : "bank");
    if (status == MARS_OK) status = transfer(&f);
    mars_text(status, text, sizeof text, &len);
    if (status == MARS_FILE) {
        perror("engine");
    } else if (status != MARS_OK) {
        fprintf(stderr, "engine: %.*s\n", (int)len, (char *)text);
    }
    mars_close_file(&f);
    return status != MARS_OK;
}
