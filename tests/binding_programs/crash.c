/* crash FILE: commits for ever, four puts each, and tells each commit once it is synced. crash FILE TOLD: whether the file has at least so many,
 * whole, and at most one more. */
#include "check.h"

int main(int argc, char **argv) {
    mars_file f;
    uint64_t n;
    OK(mars_open_file(&f, argv[1], 1));
    OK(mars_begin(&f.m, 0));
    int64_t had = number_at(&f.m, 0, 1);
    for (uint64_t key = 2; key <= 4; key++) IS(number_at(&f.m, 0, key), had);
    if (argc > 2) {
        int64_t told = atoll(argv[2]);
        printf("found %lld, told %s\n", (long long)had, argv[2]);
        mars_close_file(&f);
        return had < told || had > told + 1;
    }
    OK(mars_abort(&f.m, 0));
    for (uint64_t c = had < 0 ? 1 : (uint64_t)had + 1;; c++) {
        OK(mars_begin(&f.m, 0));
        for (uint64_t key = 1; key <= 4; key++) OK(put_number(&f.m, 0, key, c));
        OK(mars_commit(&f.m, 0, &n));
        OK(mars_sync(&f));
        printf("%llu\n", (unsigned long long)c);
        fflush(stdout);
    }
}
