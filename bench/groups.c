/* Commits of groups over mars_array.h on a file, for bench/figures to time.

       groups FILE SIZE COUNT   commits COUNT groups, each durable before the next begins, of the numbers 0 to SIZE - 1 with one write of 16 bytes
                                each, and tells how many seconds that took by the clock, without the opening */

#include "mars_array.h"
#include <fcntl.h>
#include <inttypes.h>
#include <stdio.h>
#include <stdlib.h>
#include <string.h>
#include <sys/stat.h>
#include <time.h>
#include <unistd.h>

static void must(bool is_done, const char *what)
{
    if (is_done)
        return;
    fprintf(stderr, "groups: %s failed\n", what);
    exit(1);
}

static void write_piece(mars_array *a, int file, uint64_t at, uint64_t len)
{
    uint8_t room[4096];
    uint64_t left;
    for (uint64_t skip = 0; skip < len; skip += sizeof room) {
        size_t count = len - skip < sizeof room ? (size_t)(len - skip) : sizeof room;
        mars_array_piece_bytes(a, skip, room, count, &left);
        must(pwrite(file, room, count, (off_t)(at + skip)) == (ssize_t)count, "a write");
    }
}

/* Takes the tape down to the file. */
static void sync_all(mars_array *a, int file)
{
    uint64_t at, len;
    int32_t kind;
    while ((kind = mars_array_piece(a, &at, &len)) != MARS_ARRAY_NOTHING) {
        if (kind == MARS_ARRAY_WRITE)
            write_piece(a, file, at, len);
        else
            must(fdatasync(file) == 0, "a barrier");
        mars_array_piece_done(a);
    }
}

static void open_array(mars_array *a, int file)
{
    struct stat is;
    uint8_t *bytes;
    must(file >= 0 && fstat(file, &is) == 0, "the file");
    bytes = malloc((size_t)is.st_size);
    must(bytes && read(file, bytes, (size_t)is.st_size) == is.st_size, "a read");
    must(mars_array_open(a, bytes, (size_t)is.st_size, 0) == MARS_ARRAY_OK, "the opening");
    free(bytes);
    sync_all(a, file);
}

/* Each number writes to a page of its own. */
static void commit_group(mars_array *a, int file, uint8_t size, uint64_t group)
{
    for (uint8_t number = 0; number < size; number++) {
        uint64_t value[2] = {number, group}, at = (uint64_t)number * MARS_ARRAY_PAGE, parts;
        must(mars_array_log_write(a, number, at, (const uint8_t *)value, sizeof value, &parts) == MARS_ARRAY_OK, "a log write");
    }
    must(mars_array_commit_group(a, UINT64_MAX >> (64 - size)) == MARS_ARRAY_OK, "a commit");
    sync_all(a, file);
}

static double now(void)
{
    struct timespec is;
    clock_gettime(CLOCK_MONOTONIC, &is);
    return (double)is.tv_sec + (double)is.tv_nsec / 1e9;
}

int main(int argc, char **argv)
{
    mars_array a = MARS_ARRAY_CLOSED;
    int size = argc == 4 ? atoi(argv[2]) : 0, file;
    double start;
    if (size < 1 || size > MARS_ARRAY_NUMBERS_MAX) {
        fprintf(stderr, "usage: groups FILE SIZE COUNT, SIZE being 1 to 64\n");
        return 2;
    }
    file = open(argv[1], O_RDWR);
    open_array(&a, file);
    start = now();
    for (uint64_t group = 0, count = strtoull(argv[3], NULL, 10); group < count; group++)
        commit_group(&a, file, (uint8_t)size, group);
    printf("%.9f\n", now() - start);
    mars_array_close(&a);
    close(file);
    return 0;
}
