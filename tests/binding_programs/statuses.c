/* Each call, and each status that a caller can bring about. */
#include "check.h"

static void values(mars *m) {
    uint8_t room[54];
    uint64_t len, n;
    OK(mars_begin(m, 0));
    IS(mars_begin(m, 0), MARS_ALREADY);
    len = 7, room[0] = '-';
    IS(mars_get(m, 0, MAIN, 5, room, 54, &len), MARS_ABSENT);
    HOLDS(len == 7 && room[0] == '-');
    OK(mars_put(m, 0, MAIN, 5, TEXT("abcdef")));
    OK(mars_get(m, 0, MAIN, 5, room, 54, &len));
    HOLDS(len == 6 && memcmp(room, "abcdef", 6) == 0);
    memset(room, '-', 54);
    OK(mars_get(m, 0, MAIN, 5, room, 4, &len));
    HOLDS(len == 6 && memcmp(room, "abcd--", 6) == 0);
    OK(mars_get(m, 0, MAIN, 5, room, 0, &len));
    for (int c = 0; c < 256; c++) {
        uint8_t one = (uint8_t)c;
        IS(mars_put(m, 0, MAIN, 6, &one, 1), '!' <= c && c <= '~' ? MARS_OK : MARS_BAD_VALUE);
    }
    IS(mars_put(m, 0, MAIN, 5, TEXT("")), MARS_BAD_VALUE);
    IS(mars_put(m, 0, MAIN, 5, TEXT("two words")), MARS_BAD_VALUE);
    OK(mars_put(m, 0, MAIN, 5, TEXT("123456789012345678901234567890123456789012345678901234")));
    IS(mars_put(m, 0, MAIN, 5, TEXT("1234567890123456789012345678901234567890123456789012345")), MARS_BAD_VALUE);
    IS(mars_put(m, 0, TEXT("Main"), 5, TEXT("x")), MARS_BAD_NAME);
    IS(mars_get(m, 0, TEXT(""), 5, room, 54, &len), MARS_BAD_NAME);
    IS(mars_del(m, 0, TEXT("abcdefghijklmnopq"), 5), MARS_BAD_NAME);
    IS(mars_put(m, 0, TEXT("other"), 5, TEXT("x")), MARS_NO_TABLE);
    OK(mars_put(m, 0, MAIN, UINT64_MAX, TEXT("last")));
    OK(mars_del(m, 0, MAIN, 6));
    IS(mars_del(m, 0, MAIN, 6), MARS_ABSENT);
    OK(mars_commit(m, 0, &n));
    IS(n, 1);
    IS(mars_commit(m, 0, &n), MARS_NO_TRANSACTION);
    IS(mars_begin(m, 8), MARS_BAD_CALLER);
    IS(mars_abort(m, 255), MARS_BAD_CALLER);
}

static void rows(mars *m) {
    uint8_t room[54];
    uint64_t key, len, n;
    OK(mars_begin(m, 1));
    for (uint64_t k = 10; k < 20; k++) OK(put_number(m, 1, k, k * k));
    OK(mars_scan(m, 1, MAIN, 10, 19, &n));
    IS(n, 10);
    for (uint64_t i = 0; i < n; i++) {
        OK(mars_row(m, i, &key, room, 54, &len));
        IS(key, 10 + i);
    }
    IS(mars_row(m, n, &key, room, 54, &len), MARS_ABSENT);
    OK(mars_scan(m, 1, MAIN, UINT64_MAX, UINT64_MAX, &n));
    IS(n, 1);
    OK(mars_scan(m, 1, MAIN, UINT64_MAX, 0, &n));
    IS(n, 0);
    IS(mars_scan(m, 1, TEXT("other"), 0, 9, &n), MARS_NO_TABLE);
    IS(mars_scan(m, 1, TEXT("?"), 0, 9, &n), MARS_BAD_NAME);
    IS(n, 0);
    OK(mars_abort(m, 1));
}

static void one_by_one(mars *m) {
    uint8_t room[54];
    uint64_t key = 0, len = 0, from, wanted = 1;
    OK(mars_begin(m, 1));
    for (uint64_t k = 1; k != 0; k *= 8) OK(put_number(m, 1, k, k));
    for (from = 0; mars_next(m, 1, MAIN, from, UINT64_MAX - 1, &key, room, 54, &len) == MARS_OK; from = key + 1) {
        if (key == 5) continue; /* (it was there before) */
        IS(key, wanted);
        wanted *= 8;
    }
    IS(wanted, 0);
    key = 7, len = 8, room[0] = '-';
    IS(mars_next(m, 1, MAIN, 9, 63, &key, room, 54, &len), MARS_ABSENT);
    IS(mars_next(m, 1, MAIN, 9, 8, &key, room, 54, &len), MARS_ABSENT);
    IS(mars_next(m, 1, TEXT("other"), 0, 9, &key, room, 54, &len), MARS_NO_TABLE);
    IS(mars_next(m, 1, TEXT("?"), 0, 9, &key, room, 54, &len), MARS_BAD_NAME);
    IS(mars_next(m, 8, MAIN, 0, 9, &key, room, 54, &len), MARS_BAD_CALLER);
    IS(mars_next(m, 2, MAIN, 0, 9, &key, room, 54, &len), MARS_NO_TRANSACTION);
    HOLDS(key == 7 && len == 8 && room[0] == '-');
    OK(mars_next(m, 1, MAIN, 9, 64, &key, room, 0, &len));
    HOLDS(key == 64 && len == 2 && room[0] == '-');
    OK(mars_next(m, 1, MAIN, UINT64_MAX, UINT64_MAX, &key, room, 54, &len));
    HOLDS(key == UINT64_MAX && len == 4 && memcmp(room, "last", 4) == 0);
    OK(mars_abort(m, 1));
}

static void saves(mars *m) {
    uint64_t save;
    OK(mars_begin(m, 0));
    for (uint64_t i = 1; i <= 32; i++) {
        OK(put_number(m, 0, 5, i));
        OK(mars_save(m, 0, &save));
        IS(save, i);
    }
    IS(mars_save(m, 0, &save), MARS_SAVES_FULL);
    IS(mars_back(m, 0, 33), MARS_NO_SAVE);
    IS(mars_back(m, 0, 0), MARS_NO_SAVE);
    OK(mars_back(m, 0, 3));
    IS(number_at(m, 0, 5), 3);
    OK(mars_save(m, 0, &save));
    IS(save, 4);
    OK(mars_abort(m, 0));
    IS(mars_back(m, 0, 1), MARS_NO_TRANSACTION);
    IS(mars_save(m, 0, &save), MARS_NO_TRANSACTION);
}

static void groups(mars *m) {
    uint64_t n, other;
    OK(mars_begin(m, 0));
    OK(mars_begin(m, 1));
    OK(put_number(m, 0, 100, 1));
    IS(put_number(m, 1, 100, 2), MARS_BUSY);
    OK(put_number(m, 1, 101, 2));
    OK(mars_offer(m, 0));
    IS(put_number(m, 0, 100, 3), MARS_NO_TRANSACTION);
    OK(mars_offer(m, 1));
    OK(mars_settle(m, 1, &other));
    OK(mars_settle(m, 0, &n));
    IS(n + 1, other);
    IS(mars_settle(m, 0, &n), MARS_NO_TRANSACTION);
}

static void tables(mars *m) {
    uint8_t room[16], number = 99;
    uint64_t len, key;
    char name[] = "table";
    OK(mars_table(m, 0, room, 16, &len));
    HOLDS(len == 4 && memcmp(room, "main", 4) == 0);
    IS(mars_table(m, 1, room, 16, &len), MARS_NO_TABLE);
    IS(mars_make(m, TEXT("no good"), &number), MARS_BAD_NAME);
    IS(mars_make(m, MAIN, &number), MARS_NAME_TAKEN);
    OK(mars_begin(m, 3));
    IS(mars_make(m, TEXT("other"), &number), MARS_IN_USE);
    OK(mars_abort(m, 3));
    IS(number, 99);
    for (uint8_t n = 1; n < 8; n++) {
        name[4] = (char)('a' + n);
        OK(mars_make(m, TEXT(name), &number));
        IS(number, n);
    }
    IS(mars_make(m, TEXT("other"), &number), MARS_TABLES_FULL);
    OK(mars_table(m, 7, room, 3, &len));
    HOLDS(len == 5 && memcmp(room, "tab", 3) == 0);
    OK(mars_begin(m, 3));
    OK(mars_put(m, 3, TEXT("tablb"), 9, TEXT("b")));
    IS(mars_next(m, 3, TEXT("tablc"), 0, UINT64_MAX, &key, room, 16, &len), MARS_ABSENT);
    OK(mars_next(m, 3, TEXT("tablb"), 0, UINT64_MAX, &key, room, 16, &len));
    IS(key, 9);
    OK(mars_commit(m, 3, &len));
    IS(len, 1);
}

/* An array whose index has one page, which is the root of its table; and one whose device failed. */
static void no_tables(void) {
    uint64_t size;
    uint8_t number, *bytes = fresh(&size, 1, 1, 8, 4);
    mars m = MARS_CLOSED;
    OK(mars_open(&m, bytes, size, 1));
    IS(mars_make(&m, TEXT("other"), &number), MARS_PAGES_FULL);
    IS(mars_make(&m, MAIN, &number), MARS_NAME_TAKEN);
    mars_close(&m);
    free(bytes);
    bytes = fresh(&size, 1, 1, 8, 64);
    OK(mars_open(&m, bytes, size, 1));
    OK(mars_piece_failed(&m));
    IS(mars_make(&m, TEXT("other"), &number), MARS_MEDIA);
    IS(mars_make(&m, TEXT("other"), &number), MARS_IS_CLOSED);
    free(bytes);
}

static void full(mars *m) {
    uint64_t n = 0, key = 1000;
    int32_t status;
    OK(mars_begin(m, 0));
    while ((status = put_number(m, 0, key, key)) == MARS_OK) key++;
    IS(status, MARS_LOG_FULL);
    OK(mars_abort(m, 0));
    for (;;) {
        OK(mars_begin(m, 0));
        if ((status = put_number(m, 0, key++, 1)) != MARS_OK) break;
        OK(mars_commit(m, 0, &n));
        drain(m);
    }
    IS(status, MARS_SLOTS_FULL);
    IS(mars_purge(m, 0, &n), MARS_ALREADY);
    OK(mars_abort(m, 0));
    OK(mars_purge(m, 0, &n));
    HOLDS(n > 0);
    OK(mars_begin(m, 0));
    OK(put_number(m, 0, key, 1));
    OK(mars_abort(m, 0));
}

static void openings(uint8_t *bytes, size_t size) {
    mars m = MARS_CLOSED;
    IS(mars_size(0, 8, 64, 64), 0);
    IS(mars_size(1, 65, 64, 64), 0);
    IS(mars_size(1, 8, 7, 64), 0);
    IS(mars_size(1, 8, 64, 65), 0);
    IS(mars_format(bytes, size - 1, 1, 8, 64, 64), MARS_BAD_SHAPE);
    IS(mars_format(bytes, size, 9, 8, 64, 64), MARS_BAD_SHAPE);
    IS(mars_open(&m, bytes, size, 9), MARS_BAD_CALLER);
    IS(mars_open(&m, bytes, size - 1, 8), MARS_BAD_SHAPE);
    IS(mars_open_late(&m, bytes, size, 8, 65), MARS_BAD_DEPTH);
    IS(mars_open_late(&m, bytes, size, 9, 64), MARS_BAD_CALLER);
    IS(mars_open(&m, bytes, 511, 8), MARS_NOT_MARS);
    IS(mars_open(&m, bytes, 0, 8), MARS_NOT_MARS);
    bytes[0] ^= 1;
    IS(mars_open(&m, bytes, size, 8), MARS_NOT_MARS);
    bytes[0] ^= 1;
}

/* A row of number 0 that is decided and names more cells than there are; and a super page without its mark. docs/FORMAT.md has their places. */
static void spoilt(uint8_t *bytes, size_t size) {
    static const uint8_t voted[16] = {0xc3, 1, 0, 0, 100};
    size_t page = 512 + 16 * 8 + 528 * 8 * 64;
    mars m = MARS_CLOSED;
    memcpy(bytes + 512, voted, 16);
    IS(mars_open(&m, bytes, size, 8), MARS_BAD_ROW);
    memset(bytes + 512, 0, 16);
    bytes[page] ^= 1;
    IS(mars_open(&m, bytes, size, 8), MARS_DAMAGED);
    bytes[page] ^= 1;
}

static void closed(void) {
    mars m = MARS_CLOSED;
    uint8_t room[8], number;
    uint64_t n, key;
    IS(mars_begin(&m, 0), MARS_IS_CLOSED);
    IS(mars_get(&m, 0, MAIN, 1, room, 8, &n), MARS_IS_CLOSED);
    IS(mars_put(&m, 0, MAIN, 1, TEXT("x")), MARS_IS_CLOSED);
    IS(mars_del(&m, 0, MAIN, 1), MARS_IS_CLOSED);
    IS(mars_scan(&m, 0, MAIN, 1, 2, &n), MARS_IS_CLOSED);
    IS(mars_row(&m, 0, &key, room, 8, &n), MARS_IS_CLOSED);
    IS(mars_next(&m, 0, MAIN, 1, 2, &key, room, 8, &n), MARS_IS_CLOSED);
    IS(mars_save(&m, 0, &n), MARS_IS_CLOSED);
    IS(mars_back(&m, 0, 1), MARS_IS_CLOSED);
    IS(mars_commit(&m, 0, &n), MARS_IS_CLOSED);
    IS(mars_abort(&m, 0), MARS_IS_CLOSED);
    IS(mars_offer(&m, 0), MARS_IS_CLOSED);
    IS(mars_settle(&m, 0, &n), MARS_IS_CLOSED);
    IS(mars_purge(&m, 0, &n), MARS_IS_CLOSED);
    IS(mars_table(&m, 0, room, 8, &n), MARS_IS_CLOSED);
    IS(mars_make(&m, TEXT("other"), &number), MARS_IS_CLOSED);
    IS(mars_put_bytes(&m, 0, MAIN, 1, room, 0), MARS_IS_CLOSED);
    IS(mars_get_bytes(&m, 0, MAIN, 1, room, 8, &n), MARS_IS_CLOSED);
    IS(mars_del_bytes(&m, 0, MAIN, 1), MARS_IS_CLOSED);
    IS(mars_bytes_length(&m, 0, MAIN, 1, &n), MARS_IS_CLOSED);
    IS(mars_piece(&m, &key, &n), MARS_NOTHING);
    IS(mars_piece_bytes(&m, 0, room, 8, &n), MARS_IS_CLOSED);
    IS(mars_piece_done(&m), MARS_IS_CLOSED);
    IS(mars_piece_failed(&m), MARS_IS_CLOSED);
    IS(mars_moment(&m) + mars_done_up_to(&m), 0);
    mars_close(&m);
}

static void failures(mars *m) {
    uint8_t room[8];
    uint64_t at, len, n;
    IS(mars_piece(m, &at, &len), MARS_NOTHING);
    IS(mars_piece_done(m), MARS_NO_PIECE);
    IS(mars_piece_bytes(m, 0, room, 8, &len), MARS_NO_PIECE);
    uint64_t before = mars_done_up_to(m);
    OK(mars_begin(m, 0));
    OK(put_number(m, 0, 5, 7));
    OK(mars_commit(m, 0, &n));
    HOLDS(mars_done_up_to(m) < mars_moment(m));
    IS(mars_piece(m, &at, &len), MARS_WRITE);
    OK(mars_piece_bytes(m, len, room, 8, &n));
    IS(n, 0);
    OK(mars_piece_bytes(m, len - 1, room, 8, &n));
    IS(n, 1);
    OK(mars_piece_failed(m));
    IS(mars_piece(m, &at, &len), MARS_NOTHING);
    IS(mars_piece_done(m), MARS_NO_PIECE);
    HOLDS(mars_done_up_to(m) >= before && mars_done_up_to(m) < mars_moment(m));
    OK(mars_begin(m, 0));
    IS(put_number(m, 0, 5, 8), MARS_MEDIA);
    IS(put_number(m, 0, 5, 8), MARS_DEAD);
}

/* Each status has a text of its own, and other numbers have one. */
static void texts(void) {
    uint8_t room[100], other[100];
    uint64_t len, n;
    mars_text(-1, other, 100, &n);
    for (int32_t status = MARS_OK; status <= MARS_BAD_DEPTH; status++) {
        mars_text(status, room, 100, &len);
        HOLDS(len > 0 && len < 100 && (len != n || memcmp(room, other, n)));
    }
    mars_text(MARS_BAD_DEPTH + 1, room, 100, &len);
    HOLDS(len == n && memcmp(room, other, n) == 0);
    mars_text(MARS_OK, room, 0, &len);
    HOLDS(len > 0);
    memset(room, '-', 4);
    mars_text(MARS_OK, room, 3, &len);
    HOLDS(len == 4 && memcmp(room, "don-", 4) == 0);
}

int main(void) {
    uint64_t size;
    uint8_t *bytes = fresh(&size, 1, 8, 64, 64);
    mars m = MARS_CLOSED;
    openings(bytes, size);
    spoilt(bytes, size);
    no_tables();
    closed();
    texts();
    OK(mars_open(&m, bytes, size, 8));
    IS(mars_open(&m, bytes, size, 8), MARS_IS_OPEN);
    free(bytes);
    drain(&m);
    values(&m);
    rows(&m);
    one_by_one(&m);
    saves(&m);
    groups(&m);
    tables(&m);
    HOLDS(drain(&m) > 0);
    full(&m);
    drain(&m);
    failures(&m);
    mars_close(&m);
    mars_close(&m);
    printf("statuses: as they should be\n");
}
