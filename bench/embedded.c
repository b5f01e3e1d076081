/* Work over mars.h on a file, or for `-` on an array in memory, for bench/embedded to time beside the same lines of `mars FILE run`, and for
   bench/figures, which asks for its memory.

       embedded FILE put COUNT EACH   puts the keys 0 to COUNT - 1, so many in a transaction, each of which is synced
       embedded FILE get COUNT EACH   gets keys below COUNT in no order, COUNT times, so many in a transaction
       embedded FILE rows COUNT       reads the rows of keys up to COUNT
       embedded FILE turns COUNT      makes COUNT transactions of one put of 1,000 keys, and tells the memory in KB at the opening, after 10,000
                                      and after all */

#include "mars.h"
#include <inttypes.h>
#include <stdio.h>
#include <string.h>

#define MAIN (const uint8_t *)"main", 4

static void must(int32_t status, const char *what)
{
    uint8_t text[100];
    uint64_t len = 0;
    if (status == MARS_OK)
        return;
    mars_text(status, text, sizeof text, &len);
    fprintf(stderr, "embedded: %s: %.*s\n", what, (int)len, (char *)text);
    exit(1);
}

/* An array in memory is on no device: what is taken down is done. */
static void sync_all(mars_file *f)
{
    uint64_t at, len;
    if (f->fd >= 0)
        must(mars_sync(f), "sync");
    else
        while (mars_piece(&f->m, &at, &len) != MARS_NOTHING)
            mars_piece_done(&f->m);
}

static void open_memory(mars_file *f)
{
    mars_file closed = {MARS_CLOSED, -1, false};
    uint64_t size = mars_size(4, 1, 16, 64);
    uint8_t *bytes = calloc(1, (size_t)size);
    must(bytes ? mars_format(bytes, (size_t)size, 4, 1, 16, 64) : MARS_NO_MEMORY, "format");
    *f = closed;
    must(mars_open(&f->m, bytes, (size_t)size, 1), "open");
    free(bytes);
    sync_all(f);
}

static void put(mars_file *f, uint64_t key, uint64_t number)
{
    char value[32];
    int len = snprintf(value, sizeof value, "value%011" PRIu64, number);
    must(mars_put(&f->m, 0, MAIN, key, (const uint8_t *)value, (size_t)len), "put");
}

static void commit(mars_file *f)
{
    uint64_t number;
    must(mars_commit(&f->m, 0, &number), "commit");
    sync_all(f);
}

static void puts_of(mars_file *f, uint64_t count, uint64_t each)
{
    for (uint64_t first = 0; first < count; first += each) {
        must(mars_begin(&f->m, 0), "begin");
        for (uint64_t key = first; key < first + each && key < count; key++)
            put(f, key, key);
        commit(f);
    }
}

static void gets_of(mars_file *f, uint64_t count, uint64_t each)
{
    uint8_t value[54];
    uint64_t len;
    for (uint64_t first = 0; first < count; first += each) {
        must(mars_begin(&f->m, 0), "begin");
        for (uint64_t n = first; n < first + each && n < count; n++)
            must(mars_get(&f->m, 0, MAIN, n * 7919 % count, value, sizeof value, &len), "get");
        commit(f);
    }
}

static void rows_of(mars_file *f, uint64_t count)
{
    uint8_t value[54];
    uint64_t key, len, rows;
    must(mars_begin(&f->m, 0), "begin");
    must(mars_scan(&f->m, 0, MAIN, 0, count, &rows), "scan");
    for (uint64_t at = 0; at < rows; at++)
        must(mars_row(&f->m, at, &key, value, sizeof value, &len), "row");
    commit(f);
}

/* What the system says of this program's memory. */
static long memory(const char *name)
{
    char line[200];
    long kb = 0;
    FILE *status = fopen("/proc/self/status", "r");
    while (status && fgets(line, sizeof line, status))
        if (strncmp(line, name, strlen(name)) == 0)
            kb = atol(line + strlen(name));
    if (status)
        fclose(status);
    return kb;
}

static void turns_of(mars_file *f, uint64_t count)
{
    for (uint64_t n = 0;; n++) {
        if (n == 0 || n == 10000 || n == count)
            printf("%" PRIu64 " transactions: %ld KB, at most %ld KB\n", n, memory("VmRSS:"), memory("VmHWM:"));
        if (n == count)
            return;
        must(mars_begin(&f->m, 0), "begin");
        put(f, n % 1000, n);
        commit(f);
    }
}

int main(int argc, char **argv)
{
    mars_file f;
    uint64_t count = argc > 3 ? strtoull(argv[3], NULL, 10) : 0, each = argc > 4 ? strtoull(argv[4], NULL, 10) : 1;
    if (argc < 4 || each == 0) {
        fprintf(stderr, "usage: embedded FILE put|get|rows|turns COUNT [EACH]\n");
        return 2;
    }
    if (strcmp(argv[1], "-") == 0)
        open_memory(&f);
    else
        must(mars_open_file(&f, argv[1], 1), argv[1]);
    if (strcmp(argv[2], "put") == 0)
        puts_of(&f, count, each);
    else if (strcmp(argv[2], "get") == 0)
        gets_of(&f, count, each);
    else if (strcmp(argv[2], "rows") == 0)
        rows_of(&f, count);
    else
        turns_of(&f, count);
    mars_close_file(&f);
    return 0;
}
