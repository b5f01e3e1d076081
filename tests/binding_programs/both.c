/* both FILE write: records of two tables, `main` and `log`, which is made. both FILE read: each record, as `mars FILE dump` tells it. */
#include "check.h"

static void write_records(mars_file *f) {
    uint64_t n;
    uint8_t number;
    OK(mars_make(&f->m, TEXT("log"), &number));
    for (uint64_t c = 0; c < 40; c++) {
        OK(mars_begin(&f->m, 0));
        for (uint64_t i = 0; i < 8; i++) OK(put_number(&f->m, 0, c * 1000 + i * i, c * i));
        OK(mars_put(&f->m, 0, TEXT("log"), UINT64_MAX - c, TEXT("!~\"#$")));
        if (c % 3 == 0) OK(mars_del(&f->m, 0, MAIN, c * 1000 + 1));
        OK(mars_commit(&f->m, 0, &n));
    }
    OK(mars_sync(f));
}

static void read_table(mars_file *f, const char *name, const char *prefix, uint64_t *count) {
    uint8_t room[54];
    uint64_t key = 0, len, rows;
    OK(mars_scan(&f->m, 0, TEXT(name), 0, UINT64_MAX, &rows));
    for (uint64_t at = 0; at < rows; at++) {
        OK(mars_row(&f->m, at, &key, room, 54, &len));
        printf("rec %s%llu %.*s\n", prefix, (unsigned long long)key, (int)len, (char *)room);
    }
    *count += rows;
}

int main(int argc, char **argv) {
    mars_file f;
    uint64_t count = 0;
    IS(argc, 3);
    OK(mars_open_file(&f, argv[1], 1));
    if (strcmp(argv[2], "write") == 0) {
        write_records(&f);
    } else {
        OK(mars_begin(&f.m, 0));
        read_table(&f, "log", "@log ", &count);
        read_table(&f, "main", "", &count);
        printf("records %llu\n", (unsigned long long)count);
    }
    mars_close_file(&f);
    return 0;
}
