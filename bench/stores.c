/* The lines of a script over another store: built with -DLMDB, -DSQLITE or -DBDB, for bench/figures to time beside `mars`.

       stores FOLDER < SCRIPT

   It answers `begin`, `put`, `get`, `scan` and `commit` of caller 0 as `mars FILE run` does, byte for byte, and reads the whole script
   before it begins. Each commit is durable before it is answered, as the store does it by itself. Without a folder it tells its version. */

#define _GNU_SOURCE
#include <inttypes.h>
#include <stdio.h>
#include <stdlib.h>
#include <string.h>
#include <unistd.h>

static void must(int done, const char *what)
{
    if (!done) {
        fprintf(stderr, "stores: %s failed\n", what);
        exit(1);
    }
}

static void tell_row(uint64_t key, const void *value, size_t length)
{
    printf("0 row %" PRIu64 " %.*s\n", key, (int)length, (const char *)value);
}

/* A store: open_store, begin, put, get (tells the value), scan (tells the rows, or only counts them), commit. */

#if defined LMDB

#include <lmdb.h>

static MDB_env *env;
static MDB_txn *txn;
static MDB_dbi records;

static void version(void)
{
    printf("%d.%d.%d\n", MDB_VERSION_MAJOR, MDB_VERSION_MINOR, MDB_VERSION_PATCH);
}

static void open_store(const char *folder)
{
    must(!mdb_env_create(&env) && !mdb_env_set_mapsize(env, (size_t)1 << 30) && !mdb_env_open(env, folder, 0, 0600), "open");
    must(!mdb_txn_begin(env, NULL, 0, &txn) && !mdb_dbi_open(txn, NULL, MDB_INTEGERKEY, &records) && !mdb_txn_commit(txn), "open");
}

static void begin(int writes)
{
    must(!mdb_txn_begin(env, NULL, writes ? 0 : MDB_RDONLY, &txn), "begin");
}

static void put(uint64_t key, const char *text, size_t length)
{
    MDB_val name = {sizeof key, &key}, value = {length, (void *)text};
    must(!mdb_put(txn, records, &name, &value, 0), "put");
}

static int get(uint64_t key)
{
    MDB_val name = {sizeof key, &key}, value;
    if (mdb_get(txn, records, &name, &value))
        return 0;
    printf("0 val %.*s\n", (int)value.mv_size, (char *)value.mv_data);
    return 1;
}

static uint64_t scan(uint64_t low, uint64_t high, int tells)
{
    MDB_cursor *cursor;
    MDB_val name = {sizeof low, &low}, value;
    uint64_t count = 0;
    must(!mdb_cursor_open(txn, records, &cursor), "scan");
    for (int end = mdb_cursor_get(cursor, &name, &value, MDB_SET_RANGE); !end; end = mdb_cursor_get(cursor, &name, &value, MDB_NEXT)) {
        uint64_t key;
        memcpy(&key, name.mv_data, sizeof key);
        if (key > high)
            break;
        count++;
        if (tells)
            tell_row(key, value.mv_data, value.mv_size);
    }
    mdb_cursor_close(cursor);
    return count;
}

static void commit(void)
{
    must(!mdb_txn_commit(txn), "commit");
}

static void close_store(void)
{
    mdb_env_close(env);
}

#elif defined SQLITE

#include <sqlite3.h>

static sqlite3 *base;
static sqlite3_stmt *begins, *commits, *puts_one, *gets_one, *scans, *counts;

static void version(void)
{
    puts(sqlite3_libversion());
}

static sqlite3_stmt *statement(const char *text)
{
    sqlite3_stmt *made;
    must(sqlite3_prepare_v2(base, text, -1, &made, NULL) == SQLITE_OK, text);
    return made;
}

static void open_store(const char *folder)
{
    char path[4096];
    snprintf(path, sizeof path, "%s/base", folder);
    must(sqlite3_open(path, &base) == SQLITE_OK, "open");
    must(sqlite3_exec(base, "pragma journal_mode=wal; pragma synchronous=full;"
        "create table if not exists records (key integer primary key, value text)", NULL, NULL, NULL) == SQLITE_OK, "open");
    begins = statement("begin");
    commits = statement("commit");
    puts_one = statement("insert or replace into records values (?, ?)");
    gets_one = statement("select value from records where key = ?");
    scans = statement("select key, value from records where key between ? and ? order by key");
    counts = statement("select count(*) from records where key between ? and ?");
}

static void run_once(sqlite3_stmt *made, const char *what)
{
    must(sqlite3_step(made) == SQLITE_DONE, what);
    sqlite3_reset(made);
}

static void begin(int writes)
{
    (void)writes;
    run_once(begins, "begin");
}

static void put(uint64_t key, const char *text, size_t length)
{
    sqlite3_bind_int64(puts_one, 1, (sqlite3_int64)key);
    sqlite3_bind_text(puts_one, 2, text, (int)length, SQLITE_STATIC);
    run_once(puts_one, "put");
}

static int get(uint64_t key)
{
    sqlite3_bind_int64(gets_one, 1, (sqlite3_int64)key);
    int found = sqlite3_step(gets_one) == SQLITE_ROW;
    if (found)
        printf("0 val %s\n", sqlite3_column_text(gets_one, 0));
    sqlite3_reset(gets_one);
    return found;
}

static uint64_t scan(uint64_t low, uint64_t high, int tells)
{
    sqlite3_stmt *made = tells ? scans : counts;
    uint64_t count = 0;
    sqlite3_bind_int64(made, 1, (sqlite3_int64)low);
    sqlite3_bind_int64(made, 2, (sqlite3_int64)high);
    while (sqlite3_step(made) == SQLITE_ROW) {
        if (tells)
            tell_row((uint64_t)sqlite3_column_int64(made, 0), sqlite3_column_text(made, 1), (size_t)sqlite3_column_bytes(made, 1));
        count = tells ? count + 1 : (uint64_t)sqlite3_column_int64(made, 0);
    }
    sqlite3_reset(made);
    return count;
}

static void commit(void)
{
    run_once(commits, "commit");
}

static void close_store(void)
{
    sqlite3_stmt *all[] = {begins, commits, puts_one, gets_one, scans, counts};
    for (size_t i = 0; i < sizeof all / sizeof *all; i++)
        sqlite3_finalize(all[i]);
    sqlite3_close(base);
}

#elif defined BDB

#include <db.h>
#include <endian.h>

static DB_ENV *env;
static DB *records;
static DB_TXN *txn;

static void version(void)
{
    printf("%d.%d.%d\n", DB_VERSION_MAJOR, DB_VERSION_MINOR, DB_VERSION_PATCH);
}

static void open_store(const char *folder)
{
    u_int32_t parts = DB_CREATE | DB_INIT_TXN | DB_INIT_LOG | DB_INIT_LOCK | DB_INIT_MPOOL | DB_RECOVER | DB_PRIVATE;
    must(!db_env_create(&env, 0) && !env->set_cachesize(env, 0, 16 << 20, 1), "open");
    must(!env->set_lk_max_locks(env, 200000) && !env->set_lk_max_objects(env, 200000) && !env->open(env, folder, parts, 0600), "open");
    must(!db_create(&records, env, 0) && !records->open(records, NULL, "base", NULL, DB_BTREE, DB_CREATE | DB_AUTO_COMMIT, 0600), "open");
}

static void begin(int writes)
{
    (void)writes;
    must(!env->txn_begin(env, NULL, &txn, 0), "begin");
}

/* Bytes in the order in which a tree compares them. */
static DBT name_of(uint64_t *key)
{
    DBT name = {0};
    *key = htobe64(*key);
    name.data = key;
    name.size = name.ulen = sizeof *key;
    name.flags = DB_DBT_USERMEM;
    return name;
}

static void put(uint64_t key, const char *text, size_t length)
{
    DBT name = name_of(&key), value = {0};
    value.data = (void *)text;
    value.size = (u_int32_t)length;
    must(!records->put(records, txn, &name, &value, 0), "put");
}

static int get(uint64_t key)
{
    DBT name = name_of(&key), value = {0};
    if (records->get(records, txn, &name, &value, 0))
        return 0;
    printf("0 val %.*s\n", (int)value.size, (char *)value.data);
    return 1;
}

static uint64_t scan(uint64_t low, uint64_t high, int tells)
{
    DBC *cursor;
    uint64_t count = 0;
    DBT name = name_of(&low), value = {0};
    must(!records->cursor(records, txn, &cursor, 0), "scan");
    for (int end = cursor->get(cursor, &name, &value, DB_SET_RANGE); !end; end = cursor->get(cursor, &name, &value, DB_NEXT)) {
        if (be64toh(low) > high)
            break;
        count++;
        if (tells)
            tell_row(be64toh(low), value.data, value.size);
    }
    cursor->close(cursor);
    return count;
}

static void commit(void)
{
    must(!txn->commit(txn, 0), "commit");
}

static void close_store(void)
{
    must(!env->txn_checkpoint(env, 0, 0, 0), "checkpoint");
    records->close(records, 0);
    env->close(env, 0);
}

#endif

static char *whole_input(size_t *length)
{
    size_t room = 1 << 16;
    char *text = malloc(room + 1);
    *length = 0;
    for (ssize_t came; (came = read(0, text + *length, room - *length)) > 0;) {
        *length += (size_t)came;
        if (*length == room)
            text = realloc(text, (room *= 2) + 1);
        must(text != NULL, "memory");
    }
    text[*length] = 0;
    return text;
}

/* Whether there is a put before the next commit. */
static int writes_next(const char *line)
{
    for (const char *end; (end = strchr(line, '\n')); line = end + 1) {
        if (!strncmp(line, "0 put ", 6))
            return 1;
        if (!strncmp(line, "0 commit", 8))
            return 0;
    }
    return 0;
}

static void answer(char *line, char *next, uint64_t *done)
{
    char *rest;
    if (!strcmp(line, "0 begin")) {
        begin(writes_next(next));
        puts("0 ok");
    } else if (!strncmp(line, "0 put ", 6)) {
        uint64_t key = strtoull(line + 6, &rest, 10);
        put(key, rest + 1, strlen(rest + 1));
        puts("0 ok");
    } else if (!strncmp(line, "0 get ", 6)) {
        if (!get(strtoull(line + 6, NULL, 10)))
            puts("0 none");
    } else if (!strncmp(line, "0 scan ", 7)) {
        uint64_t low = strtoull(line + 7, &rest, 10), high = strtoull(rest, NULL, 10);
        printf("0 rows %" PRIu64 "\n", scan(low, high, 0));
        scan(low, high, 1);
    } else if (!strcmp(line, "0 commit")) {
        commit();
        printf("0 committed %" PRIu64 "\n", ++*done);
        fflush(stdout);
    } else {
        must(0, line);
    }
}

int main(int count, char **words)
{
    size_t length;
    uint64_t done = 0;
    if (count < 2) {
        version();
        return 0;
    }
    char *text = whole_input(&length);
    open_store(words[1]);
    for (char *line = text, *end; (end = strchr(line, '\n')); line = end + 1) {
        *end = 0;
        answer(line, end + 1, &done);
    }
    close_store();
    return 0;
}
