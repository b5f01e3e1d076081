/* made FILE: a fresh array in a new file. What there is is not made anew, and what is open is not opened a second time. */
#include "check.h"

int main(int argc, char **argv) {
    mars_file f, other;
    IS(argc, 2);
    IS(mars_open_file(&f, argv[1], 8), MARS_FILE);
    IS(errno, ENOENT);
    IS(mars_make_file(argv[1], 2, 0, 64, 64), MARS_BAD_SHAPE);
    IS(access(argv[1], F_OK), -1);
    OK(mars_make_file(argv[1], 2, 8, 64, 64));
    IS(mars_make_file(argv[1], 2, 8, 64, 64), MARS_FILE);
    IS(errno, EEXIST);
    OK(mars_open_file(&f, argv[1], 8));
    IS(mars_open_file(&other, argv[1], 8), MARS_FILE);
    IS(errno, EWOULDBLOCK);
    mars_close_file(&f);
    mars_close_file(&f);
    IS(mars_open_file(&f, argv[1], 9), MARS_BAD_CALLER);
    IS(mars_open_file(&f, "/nowhere/image", 8), MARS_FILE);
    IS(errno, ENOENT);
    return 0;
}
