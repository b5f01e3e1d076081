/* Tables of a MARS array as tables of SQLite: a loadable extension over mars.h.
 *
 *     cc -shared -fPIC -O2 -Idist examples/sqlite/mars_table.c dist/libmars.a -o mars_table.so
 *     sqlite3
 *     .load ./mars_table
 *     create virtual table account using mars('bank.image');
 *     create virtual table payment using mars('bank.image', 'payment');
 *     insert into account values (5, 'abc');
 *     select * from account where key between 1 and 9;
 *
 * The first argument is a file; `create` makes it if there is none. The second is a table of the array, `main` if it is not given; `create` makes
 * that too, outside of a transaction. A value has 1 to 54 visible bytes. A key is a whole number from 0 on; keys from 2^63 on, which SQLite cannot
 * say, are not shown. `drop` leaves the records in the array.
 *
 * SQLite's transactions are those of MARS, and its savepoints are saves. All virtual tables that a connection has in one file share one array and
 * one transaction, so they change together. What is in other files, SQLite's own included, may be committed or not if power is lost between two.
 * A transaction has as many writes and saves as MARS allows. What goes beyond that fails as on a full disk. */
#include "mars.h"
#include <sqlite3ext.h>
#include <string.h>
SQLITE_EXTENSION_INIT1

enum {
    CALLER, /* of SQLite's transactions */
    PURGER, /* when the array is full of deleted keys */
    CALLERS,
    MOST_LEVELS = 256,
    MOST_NAME = 16,
    MOST_VALUE = 54
};

/* The array that `create` makes. */
enum { LOGGERS = 8, NUMBERS = 8, ENTRIES = 64, PAGES = 256 };

/* What is asked of the key (idxNum). Each has an argument, in this order. */
enum { EQUAL = 1, FROM = 2, TO = 4 };

/* An array that a connection has open, for all of its tables in this file. */
typedef struct Array {
    struct Array *next;
    mars_file file;
    int tables, cursors;
    bool is_live;     /* the caller has a transaction */
    bool is_writing;  /* and it is one of SQLite's, not one of its cursors alone */
    bool has_written; /* since the last save */
    uint64_t saves;
    int levels;                     /* savepoints that SQLite has open */
    uint64_t save_of[MOST_LEVELS]; /* the save of each, 0 for the beginning of the transaction */
    char path[];
} Array;

typedef struct Connection {
    sqlite3 *db;
    Array *arrays;
} Connection;

typedef struct Table {
    sqlite3_vtab base;
    Connection *connection;
    Array *array;
    uint8_t name[MOST_NAME];
    size_t name_len;
} Table;

/* Stands at a row, or at the end of the keys that were asked for. */
typedef struct Cursor {
    sqlite3_vtab_cursor base;
    uint64_t last; /* of these keys */
    bool is_at_end;
    uint64_t key, len;
    uint8_t value[MOST_VALUE];
} Cursor;

/* ---- errors ---- */

static int code_of(int32_t status) {
    switch (status) {
    case MARS_OK: return SQLITE_OK;
    case MARS_BUSY:
    case MARS_IN_USE: return SQLITE_BUSY;
    case MARS_SAVES_FULL:
    case MARS_LOG_FULL:
    case MARS_SLOTS_FULL:
    case MARS_PAGES_FULL:
    case MARS_TABLES_FULL: return SQLITE_FULL;
    case MARS_MEDIA:
    case MARS_DEAD:
    case MARS_FILE: return SQLITE_IOERR;
    case MARS_NO_MEMORY: return SQLITE_NOMEM;
    case MARS_DAMAGED:
    case MARS_BAD_ROW: return SQLITE_CORRUPT_VTAB;
    case MARS_NOT_MARS:
    case MARS_BAD_SHAPE: return SQLITE_NOTADB;
    case MARS_BAD_VALUE: return SQLITE_CONSTRAINT;
    default: return SQLITE_ERROR;
    }
}

/* What a status means, as a text for sqlite3_free. */
static char *words_of(int32_t status) {
    uint8_t text[100];
    uint64_t len = 0;
    if (status == MARS_FILE) return sqlite3_mprintf("mars: %s", errno == EWOULDBLOCK ? "another program has the file" : strerror(errno));
    mars_text(status, text, sizeof text, &len);
    return sqlite3_mprintf("mars: %.*s", (int)(len < sizeof text ? len : sizeof text), (char *)text);
}

static int told(Table *t, int32_t status) {
    if (status == MARS_OK) return SQLITE_OK;
    sqlite3_free(t->base.zErrMsg);
    t->base.zErrMsg = words_of(status);
    return code_of(status);
}

static int refused(Table *t, const char *why) {
    sqlite3_free(t->base.zErrMsg);
    t->base.zErrMsg = sqlite3_mprintf("mars: %s", why);
    return SQLITE_CONSTRAINT;
}

/* ---- transactions and savepoints ---- */

static int32_t begin(Array *a) {
    int32_t status = a->is_live ? MARS_OK : mars_begin(&a->file.m, CALLER);
    if (status == MARS_OK) a->is_live = true;
    return status;
}

static void has_ended(Array *a) {
    a->is_live = a->is_writing = a->has_written = false;
    a->saves = 0;
    a->levels = 0;
}

static void drop(Array *a) {
    if (a->is_live) mars_abort(&a->file.m, CALLER);
    has_ended(a);
}

static int begin_writing(Table *t) {
    int32_t status = begin(t->array);
    if (status == MARS_OK) t->array->is_writing = true;
    return told(t, status);
}

static int table_begin(sqlite3_vtab *v) {
    return begin_writing((Table *)v);
}

/* Commits here and not in xCommit, whose failure nobody would be told. Another table of the array may have done it. */
static int table_sync(sqlite3_vtab *v) {
    Table *t = (Table *)v;
    Array *a = t->array;
    uint64_t number;
    if (!a->is_live || !a->is_writing) return SQLITE_OK;
    int32_t status = mars_commit(&a->file.m, CALLER, &number);
    if (status != MARS_OK) return told(t, status);
    has_ended(a);
    return told(t, mars_sync(&a->file));
}

static int table_commit(sqlite3_vtab *v) {
    (void)v;
    return SQLITE_OK;
}

static int table_rollback(sqlite3_vtab *v) {
    drop(((Table *)v)->array);
    return SQLITE_OK;
}

/* A level is open until it is released. Where several tables of an array are told of it, the first makes the save. */
static int table_savepoint(sqlite3_vtab *v, int level) {
    Table *t = (Table *)v;
    Array *a = t->array;
    if (level < a->levels) return SQLITE_OK;
    if (level >= MOST_LEVELS) return told(t, MARS_SAVES_FULL);
    if (a->has_written) {
        int32_t status = mars_save(&a->file.m, CALLER, &a->saves);
        if (status != MARS_OK) return told(t, status);
        a->has_written = false;
    }
    /* levels that were open before the transaction began have its beginning too */
    while (a->levels <= level) a->save_of[a->levels++] = a->saves;
    return SQLITE_OK;
}

static int table_release(sqlite3_vtab *v, int level) {
    Array *a = ((Table *)v)->array;
    if (level < a->levels) a->levels = level;
    return SQLITE_OK;
}

/* Level -1 is that of a savepoint which began the transaction. */
static int table_rollback_to(sqlite3_vtab *v, int level) {
    Table *t = (Table *)v;
    Array *a = t->array;
    int32_t status = MARS_OK;
    if (level >= a->levels) return SQLITE_OK;
    uint64_t save = level < 0 ? 0 : a->save_of[level];
    a->levels = level + 1;
    if (!a->is_live || (!a->has_written && a->saves == save)) return SQLITE_OK;
    if (save > 0) status = mars_back(&a->file.m, CALLER, (uint32_t)save);
    if (save == 0) status = mars_abort(&a->file.m, CALLER);
    if (save == 0 && status == MARS_OK) status = mars_begin(&a->file.m, CALLER);
    a->saves = save;
    a->has_written = false;
    return told(t, status);
}

/* ---- arrays and tables ---- */

static int32_t open_file(mars_file *file, const char *path, bool is_new) {
    int32_t status = mars_open_file(file, path, CALLERS);
    if (status != MARS_FILE || errno != ENOENT || !is_new) return status;
    status = mars_make_file(path, LOGGERS, NUMBERS, ENTRIES, PAGES);
    return status == MARS_OK ? mars_open_file(file, path, CALLERS) : status;
}

static int32_t take_array(Connection *c, const char *path, bool is_new, Array **found) {
    for (Array *a = c->arrays; a; a = a->next) {
        if (strcmp(a->path, path) != 0) continue;
        a->tables++;
        *found = a;
        return MARS_OK;
    }
    size_t size = strlen(path) + 1;
    Array *a = sqlite3_malloc64(sizeof *a + size);
    if (!a) return MARS_NO_MEMORY;
    memset(a, 0, sizeof *a);
    memcpy(a->path, path, size);
    int32_t status = open_file(&a->file, path, is_new);
    if (status != MARS_OK) {
        int why = errno;
        sqlite3_free(a);
        errno = why;
        return status;
    }
    a->tables = 1;
    a->next = c->arrays;
    c->arrays = a;
    *found = a;
    return MARS_OK;
}

static void give_array(Connection *c, Array *a) {
    if (--a->tables > 0) return;
    Array **at = &c->arrays;
    while (*at != a) at = &(*at)->next;
    *at = a->next;
    mars_close_file(&a->file);
    sqlite3_free(a);
}

static bool has_table(mars *m, const uint8_t *name, size_t name_len) {
    uint8_t room[MOST_NAME], number = 0;
    uint64_t len;
    while (mars_table(m, number, room, sizeof room, &len) == MARS_OK) {
        if (len == name_len && memcmp(room, name, name_len) == 0) return true;
        number++;
    }
    return false;
}

static int32_t take_table(Table *t, const char *name, bool is_new) {
    mars_file *file = &t->array->file;
    uint8_t number;
    t->name_len = strlen(name);
    if (t->name_len > MOST_NAME) return MARS_BAD_NAME;
    memcpy(t->name, name, t->name_len);
    if (has_table(&file->m, t->name, t->name_len)) return MARS_OK;
    if (!is_new) return MARS_NO_TABLE;
    int32_t status = mars_make(&file->m, t->name, t->name_len, &number);
    return status == MARS_OK ? mars_sync(file) : status;
}

/* An argument without its quotes, for sqlite3_free. */
static char *unquoted(const char *word) {
    char *text = sqlite3_mprintf("%s", word), *to = text;
    if (!text || (*word != '\'' && *word != '"')) return text;
    for (const char *from = word + 1; *from && (*from != *word || *++from == *word); from++) *to++ = *from;
    *to = 0;
    return text;
}

static int32_t take(Connection *c, int count, const char *const *words, bool is_new, Table *t) {
    char *path = unquoted(words[0]), *name = unquoted(count > 1 ? words[1] : "main");
    int32_t status = path && name ? take_array(c, path, is_new, &t->array) : MARS_NO_MEMORY;
    if (status == MARS_OK) status = take_table(t, name, is_new);
    int why = errno;
    if (status != MARS_OK && t->array) give_array(c, t->array);
    sqlite3_free(path);
    sqlite3_free(name);
    errno = why;
    return status;
}

static int connect(sqlite3 *db, Connection *c, int count, const char *const *words, sqlite3_vtab **out, char **error, bool is_new) {
    if (count < 1 || count > 2) {
        *error = sqlite3_mprintf("mars: using mars(FILE [, TABLE])");
        return SQLITE_ERROR;
    }
    int code = sqlite3_declare_vtab(db, "create table x(key integer primary key, value text not null)");
    if (code == SQLITE_OK) code = sqlite3_vtab_config(db, SQLITE_VTAB_CONSTRAINT_SUPPORT, 1);
    if (code == SQLITE_OK) code = sqlite3_vtab_config(db, SQLITE_VTAB_DIRECTONLY);
    if (code != SQLITE_OK) return code;
    Table *t = sqlite3_malloc64(sizeof *t);
    if (!t) return SQLITE_NOMEM;
    memset(t, 0, sizeof *t);
    t->connection = c;
    int32_t status = take(c, count, words, is_new, t);
    if (status != MARS_OK) {
        *error = words_of(status);
        sqlite3_free(t);
        return code_of(status);
    }
    *out = &t->base;
    return SQLITE_OK;
}

/* The words are the module, the database, the table, and then the arguments. */
static int table_create(sqlite3 *db, void *c, int count, const char *const *words, sqlite3_vtab **out, char **error) {
    return connect(db, c, count - 3, words + 3, out, error, true);
}

static int table_connect(sqlite3 *db, void *c, int count, const char *const *words, sqlite3_vtab **out, char **error) {
    return connect(db, c, count - 3, words + 3, out, error, false);
}

static int table_disconnect(sqlite3_vtab *v) {
    Table *t = (Table *)v;
    give_array(t->connection, t->array);
    sqlite3_free(t);
    return SQLITE_OK;
}

static int table_rename(sqlite3_vtab *v, const char *name) {
    (void)v, (void)name;
    return SQLITE_OK;
}

/* ---- reading ---- */

static int way_of(int operator) {
    switch (operator) {
    case SQLITE_INDEX_CONSTRAINT_EQ: return EQUAL;
    case SQLITE_INDEX_CONSTRAINT_GT:
    case SQLITE_INDEX_CONSTRAINT_GE: return FROM;
    case SQLITE_INDEX_CONSTRAINT_LT:
    case SQLITE_INDEX_CONSTRAINT_LE: return TO;
    default: return 0;
    }
}

/* The key is column 0, and the rowid (-1) too. SQLite tests each row again, so that a bound may be taken as included. */
static int best_index(sqlite3_vtab *v, sqlite3_index_info *info) {
    int at[TO + 1] = {0}, ways = 0, count = 0;
    (void)v;
    for (int i = 0; i < info->nConstraint; i++) {
        int way = way_of(info->aConstraint[i].op);
        if (!info->aConstraint[i].usable || info->aConstraint[i].iColumn > 0 || !way || (ways & way)) continue;
        ways |= way;
        at[way] = i;
    }
    if (ways & EQUAL) ways = EQUAL;
    for (int way = EQUAL; way <= TO; way *= 2)
        if (ways & way) info->aConstraintUsage[at[way]].argvIndex = ++count;
    info->idxNum = ways;
    info->estimatedRows = ways == EQUAL ? 1 : ways == (FROM | TO) ? 100 : ways ? 10000 : 100000;
    info->estimatedCost = (double)info->estimatedRows;
    info->orderByConsumed = info->nOrderBy == 1 && info->aOrderBy[0].iColumn <= 0 && !info->aOrderBy[0].desc;
    return SQLITE_OK;
}

static int cursor_open(sqlite3_vtab *v, sqlite3_vtab_cursor **out) {
    Cursor *c = sqlite3_malloc64(sizeof *c);
    if (!c) return SQLITE_NOMEM;
    memset(c, 0, sizeof *c);
    ((Table *)v)->array->cursors++;
    *out = &c->base;
    return SQLITE_OK;
}

static int cursor_close(sqlite3_vtab_cursor *v) {
    Array *a = ((Table *)v->pVtab)->array;
    if (--a->cursors == 0 && !a->is_writing) drop(a);
    sqlite3_free(v);
    return SQLITE_OK;
}

/* Goes to the first row from this key on. Where the transaction of the last one was ended, a new one begins. One key alone is held alone. */
static int go_to(Cursor *c, uint64_t from) {
    Table *t = (Table *)c->base.pVtab;
    mars *m = &t->array->file.m;
    int32_t status = begin(t->array);
    if (status == MARS_OK && from < c->last) {
        status = mars_next(m, CALLER, t->name, t->name_len, from, c->last, &c->key, c->value, MOST_VALUE, &c->len);
    } else if (status == MARS_OK) {
        c->key = from;
        status = mars_get(m, CALLER, t->name, t->name_len, from, c->value, MOST_VALUE, &c->len);
    }
    c->is_at_end = status != MARS_OK;
    return status == MARS_ABSENT ? SQLITE_OK : told(t, status);
}

/* Narrows the keys from *low to *high. What is no whole number narrows nothing: SQLite tests the rows. */
static void narrow(int way, sqlite3_value *value, sqlite3_int64 *low, sqlite3_int64 *high) {
    if (sqlite3_value_numeric_type(value) != SQLITE_INTEGER) return;
    sqlite3_int64 bound = sqlite3_value_int64(value);
    if (way != TO && bound > *low) *low = bound;
    if (way != FROM && bound < *high) *high = bound;
    if (way == EQUAL && bound < *low) *high = -1;
}

static int cursor_filter(sqlite3_vtab_cursor *v, int ways, const char *text, int count, sqlite3_value **values) {
    Cursor *c = (Cursor *)v;
    sqlite3_int64 low = 0, high = INT64_MAX;
    int at = 0;
    (void)text;
    for (int way = EQUAL; way <= TO && at < count; way *= 2)
        if (ways & way) narrow(way, values[at++], &low, &high);
    c->is_at_end = low > high;
    if (c->is_at_end) return SQLITE_OK;
    c->last = (uint64_t)high;
    return go_to(c, (uint64_t)low);
}

static int cursor_next(sqlite3_vtab_cursor *v) {
    Cursor *c = (Cursor *)v;
    c->is_at_end = c->key >= c->last;
    return c->is_at_end ? SQLITE_OK : go_to(c, c->key + 1);
}

static int cursor_is_at_end(sqlite3_vtab_cursor *v) {
    return ((Cursor *)v)->is_at_end;
}

static int cursor_column(sqlite3_vtab_cursor *v, sqlite3_context *to, int column) {
    const Cursor *c = (Cursor *)v;
    if (column == 0) sqlite3_result_int64(to, (sqlite3_int64)c->key);
    if (column == 1) sqlite3_result_text(to, (const char *)c->value, (int)c->len, SQLITE_TRANSIENT);
    return SQLITE_OK;
}

static int cursor_rowid(sqlite3_vtab_cursor *v, sqlite3_int64 *key) {
    *key = (sqlite3_int64)((Cursor *)v)->key;
    return SQLITE_OK;
}

/* ---- writing ---- */

static int32_t put_once(Table *t, uint64_t key, const void *bytes, size_t len) {
    t->array->has_written = true;
    return mars_put(&t->array->file.m, CALLER, t->name, t->name_len, key, bytes, len);
}

/* Puts a value. Where the array is full, keys that were deleted make room. */
static int32_t put(Table *t, uint64_t key, sqlite3_value *value) {
    const void *bytes = sqlite3_value_blob(value);
    size_t len = (size_t)sqlite3_value_bytes(value);
    uint64_t keys = 0;
    if (!bytes) bytes = "";
    int32_t status = put_once(t, key, bytes, len);
    if (status != MARS_SLOTS_FULL || mars_purge(&t->array->file.m, PURGER, &keys) != MARS_OK || keys == 0) return status;
    return put_once(t, key, bytes, len);
}

static int32_t remove_row(Table *t, uint64_t key) {
    int32_t status = mars_del(&t->array->file.m, CALLER, t->name, t->name_len, key);
    if (status == MARS_OK) t->array->has_written = true;
    return status == MARS_ABSENT ? MARS_OK : status;
}

static int32_t find(Table *t, uint64_t key) {
    uint8_t room[1];
    uint64_t len;
    return mars_get(&t->array->file.m, CALLER, t->name, t->name_len, key, room, 0, &len);
}

/* Puts a row under a key, in the place of the row under `old` if there was one (else -1). A failure is undone by SQLite's savepoint. */
static int put_row(Table *t, sqlite3_int64 old, sqlite3_int64 key, sqlite3_value *value, int on_conflict) {
    if (key != old && on_conflict != SQLITE_REPLACE) {
        int32_t status = find(t, (uint64_t)key);
        if (status == MARS_OK) return refused(t, "there is a row of this key");
        if (status != MARS_ABSENT) return told(t, status);
    }
    int32_t status = put(t, (uint64_t)key, value);
    if (status == MARS_OK && old >= 0 && key != old) status = remove_row(t, (uint64_t)old);
    return told(t, status);
}

/* values: the old rowid alone (delete), or it (null for insert), the new one, the key, and the value. */
static int table_update(sqlite3_vtab *v, int count, sqlite3_value **values, sqlite3_int64 *rowid) {
    Table *t = (Table *)v;
    int code = begin_writing(t);
    if (code != SQLITE_OK) return code;
    sqlite3_int64 old = sqlite3_value_type(values[0]) == SQLITE_NULL ? -1 : sqlite3_value_int64(values[0]);
    if (count == 1) return told(t, remove_row(t, (uint64_t)old));
    if (old >= 0 && sqlite3_value_int64(values[1]) != old) return refused(t, "set the key, and not the rowid");
    sqlite3_value *key = values[sqlite3_value_type(values[2]) == SQLITE_NULL ? 1 : 2];
    if (sqlite3_value_numeric_type(key) != SQLITE_INTEGER || sqlite3_value_int64(key) < 0) return refused(t, "a key is a whole number from 0 on");
    if (sqlite3_value_type(values[3]) == SQLITE_NULL) return refused(t, "a value is not null");
    *rowid = sqlite3_value_int64(key);
    return put_row(t, old, *rowid, values[3], sqlite3_vtab_on_conflict(t->connection->db));
}

/* ---- the module ---- */

static sqlite3_module module = {
    .iVersion = 2,
    .xCreate = table_create,
    .xConnect = table_connect,
    .xBestIndex = best_index,
    .xDisconnect = table_disconnect,
    .xDestroy = table_disconnect,
    .xOpen = cursor_open,
    .xClose = cursor_close,
    .xFilter = cursor_filter,
    .xNext = cursor_next,
    .xEof = cursor_is_at_end,
    .xColumn = cursor_column,
    .xRowid = cursor_rowid,
    .xUpdate = table_update,
    .xBegin = table_begin,
    .xSync = table_sync,
    .xCommit = table_commit,
    .xRollback = table_rollback,
    .xRename = table_rename,
    .xSavepoint = table_savepoint,
    .xRelease = table_release,
    .xRollbackTo = table_rollback_to,
};

int sqlite3_marstable_init(sqlite3 *db, char **error, const sqlite3_api_routines *api) {
    SQLITE_EXTENSION_INIT2(api);
    (void)error;
    Connection *c = sqlite3_malloc64(sizeof *c);
    if (!c) return SQLITE_NOMEM;
    c->arrays = NULL;
    c->db = db;
    return sqlite3_create_module_v2(db, "mars", &module, c, sqlite3_free);
}
