/* MARS for C: records under 64-bit keys, in transactions.
 *
 * The library computes, and makes no call of the system but malloc, realloc and free. An array lies in memory, and with it a tape of what is
 * still to be done on the device, in order: writes and barriers. Take it down from the front after a call: read a piece by mars_piece, do it on
 * the device, say mars_piece_done, and so on until there is none. What was committed is durable then. On a file, mars_sync does all of that.
 *
 * A loss of power while the tape is taken down leaves the records of the first so many commits, each whole. It leaves all that were answered up
 * to a moment (mars_moment) once mars_done_up_to has reached that moment.
 *
 * What the library cannot know is yours to see to, at every function:
 *   - `m` leads to a mars that holds MARS_CLOSED or what a function of this header left there, and nobody else changes it or copies it. One call
 *     at a time uses it; different ones may be used by different threads.
 *   - No pointer is null, and none leads into another argument. A pointer before a length leads to as many bytes as that says, which may be 0. A
 *     name, a value or a text does not end with a 0.
 *   - malloc, realloc and free are those of one allocator, and no function is called from a signal handler.
 * All else is checked, and answered by a status. No call changes what its out-pointers lead to but as its comment says. */
#ifndef MARS_H
#define MARS_H
#include <stdbool.h>
#include <stddef.h>
#include <stdint.h>
#ifdef __cplusplus
extern "C" {
#endif

/* An array, open or closed. Begin with MARS_CLOSED, and leave both fields alone. */
typedef struct mars {
    void *kept;
    bool is_open;
} mars;

#define MARS_CLOSED \
    { 0, false }

/* What a call answers. The numbers stay what they are. */
enum {
    MARS_OK,
    MARS_ABSENT,         /* there is no record, no value, or no such row */
    MARS_NO_TRANSACTION, /* the caller has none, or has offered it: begin one, or settle */
    MARS_NO_TABLE,
    MARS_ALREADY, /* the caller has a transaction already */
    MARS_NO_SAVE,
    MARS_SAVES_FULL, /* a transaction has at most 32 */
    MARS_BUSY,       /* another caller holds the key: abort, and try again */
    MARS_LOG_FULL,   /* the transaction has written as much as it may: commit or abort */
    MARS_SLOTS_FULL, /* the array is full for new keys */
    MARS_PAGES_FULL, /* the index is */
    MARS_MEDIA,      /* memory ran out in a write, or a piece had failed: close, and open anew from what the device holds */
    MARS_DEAD,       /* so it was before */
    MARS_NO_MEMORY,
    MARS_DAMAGED,
    MARS_BAD_CALLER,
    MARS_BAD_NAME,  /* a table's name has 1 to 16 letters from a to z */
    MARS_BAD_VALUE, /* a value has 1 to 54 bytes from ! to ~ */
    MARS_BAD_SHAPE, /* there is no array of this shape, or it has another length */
    MARS_NOT_MARS,  /* the bytes hold no array */
    MARS_BAD_ROW,
    MARS_NO_PIECE,    /* there is nothing to be done, or no write */
    MARS_FILE,        /* the system refused a file: errno says why */
    MARS_IS_CLOSED,   /* the mars is closed */
    MARS_BAD_KEY,     /* the key of long bytes is below 2 to the power of 55 */
    MARS_TOO_LONG,    /* long bytes are at most 16384 */
    MARS_BROKEN,      /* the records under the key are not those of long bytes */
    MARS_HALF,        /* the long bytes are half written, and the way back was refused: abort */
    MARS_IN_USE,      /* some caller has a transaction: end all of them first */
    MARS_NAME_TAKEN,  /* there is a table of this name */
    MARS_TABLES_FULL, /* an array has at most 8 tables */
    MARS_IS_OPEN,     /* the mars is open: close it first */
    MARS_BAD_DEPTH    /* at most 64 commits may wait */
};

/* What mars_piece answers. */
enum { MARS_NOTHING, MARS_WRITE, MARS_BARRIER };

/* How many bytes an array of this shape takes: 1 to 8 loggers, 1 to 64 callers, how many entries a log has, and how many pages of 512 bytes a
 * logger. It is 0 if there is none of this shape. */
uint64_t mars_size(uint8_t loggers, uint8_t callers, uint16_t entries, uint32_t pages);
/* Makes a fresh array of this shape in the bytes, which are as many as mars_size tells. Write them to the device, and make them durable. If it is
 * refused, the bytes are what they were. */
int32_t mars_format(uint8_t *bytes, size_t size, uint8_t loggers, uint8_t callers, uint16_t entries, uint32_t pages);

/* Opens the array in a copy of these bytes, as a loss of power left them, for so many callers. The mars is closed before, and at MARS_OK it is open.
 * You owe: the bytes are all that the device holds, and durable there. What the opening repaired is on the tape. */
int32_t mars_open(mars *m, const uint8_t *bytes, size_t size, uint8_t callers);
/* Opens it so that up to depth commits, 0 to 64, may wait for their write-back (0: none, as mars_open). A commit is durable all the same once the
 * tape is taken down: its log is on the device then. Its data is written to its place by a later call, or by the next opening: what waits is not
 * lost by mars_close, nor by a loss of power. */
int32_t mars_open_late(mars *m, const uint8_t *bytes, size_t size, uint8_t callers, uint8_t depth);
/* Closes it, if it is open, and frees its memory. What was not committed is dropped; what is still on the tape is too. */
void mars_close(mars *m);

/* Callers are 0 to one less than mars_open was told; each has a transaction of its own. */
int32_t mars_begin(mars *m, uint8_t caller);
/* The value under a key. Its first room_size bytes are put into room, and its whole length into len. If there is none, both stay as they were. */
int32_t mars_get(mars *m, uint8_t caller, const uint8_t *table, size_t table_len, uint64_t key, uint8_t *room, size_t room_size, uint64_t *len);
int32_t mars_put(mars *m, uint8_t caller, const uint8_t *table, size_t table_len, uint64_t key, const uint8_t *value, size_t value_len);
/* MARS_OK if there was a record, and MARS_ABSENT if there was none. */
int32_t mars_del(mars *m, uint8_t caller, const uint8_t *table, size_t table_len, uint64_t key);
/* Reads the records from low to high, both included, as the caller sees them now, and tells how many they are. They are kept until the next
 * mars_scan of any caller, and mars_row tells one by its place, from 0 on, with its key and its value as mars_get does. */
int32_t mars_scan(mars *m, uint8_t caller, const uint8_t *table, size_t table_len, uint64_t low, uint64_t high, uint64_t *count);
int32_t mars_row(mars *m, uint64_t at, uint64_t *key, uint8_t *room, size_t room_size, uint64_t *len);
/* The first record from the key `from` to the key `to`, both included, as the caller sees it now: its key, and its value as mars_get tells one. If
 * there is none (MARS_ABSENT), key, room and len stay as they were. Go on from *key + 1, unless *key is `to`. It is a scan of a few keys for most
 * records, holds the table as mars_scan does, and leaves the rows of the last mars_scan. */
int32_t mars_next(mars *m, uint8_t caller, const uint8_t *table, size_t table_len, uint64_t from, uint64_t to, uint64_t *key, uint8_t *room,
                  size_t room_size, uint64_t *len);
/* Makes a save, and tells its number, from 1 on. mars_back goes back to one, and forgets the later ones. */
int32_t mars_save(mars *m, uint8_t caller, uint64_t *save);
int32_t mars_back(mars *m, uint8_t caller, uint32_t save);
/* Commits, and tells the number of the transaction since the opening, from 1 on. It is durable once the tape is taken down. */
int32_t mars_commit(mars *m, uint8_t caller, uint64_t *number);
int32_t mars_abort(mars *m, uint8_t caller);
/* A group: each caller offers its transaction; the first that settles commits all that were offered, at once. Each settles its own, and is told its
 * number. */
int32_t mars_offer(mars *m, uint8_t caller);
int32_t mars_settle(mars *m, uint8_t caller, uint64_t *number);
/* Takes keys that have no record out of the index, so that others find room, and tells how many. The caller has no transaction. */
int32_t mars_purge(mars *m, uint8_t caller, uint64_t *keys);

/* Long bytes: 0 to 16,384 bytes of any value under a key below 2^55. They lie in records of the table: those of the key k in the records from
 * 512 * k to 512 * k + 410, one with their length and one for each 40 bytes. So a table has long bytes or records of its own, and not both: where
 * mars_put or mars_del has changed such a record, what is read is MARS_BROKEN or other bytes. 16,384 bytes are too many for the log of a small array
 * (MARS_LOG_FULL): they take 8 loggers with 64 entries.
 *
 * Puts the bytes in the place of those that were there. It makes a save first, which stays (mars_save would tell the next number); where it is
 * refused, it goes back to that, and the bytes are those that were there. If that is refused too, the status is MARS_HALF. */
int32_t mars_put_bytes(mars *m, uint8_t caller, const uint8_t *table, size_t table_len, uint64_t key, const uint8_t *bytes, size_t size);
/* The first room_size of the bytes are put into room, and how many there are into len. If there are none (MARS_ABSENT), both stay as they were. */
int32_t mars_get_bytes(mars *m, uint8_t caller, const uint8_t *table, size_t table_len, uint64_t key, uint8_t *room, size_t room_size, uint64_t *len);
/* Removes them, as mars_put_bytes puts them: MARS_OK if there were some, and MARS_ABSENT if there were none. */
int32_t mars_del_bytes(mars *m, uint8_t caller, const uint8_t *table, size_t table_len, uint64_t key);
/* How many there are, by one look-up. If there are none, len stays as it was. */
int32_t mars_bytes_length(mars *m, uint8_t caller, const uint8_t *table, size_t table_len, uint64_t key, uint64_t *len);

/* Makes a table of this name, without records, and tells its number. No caller has a transaction, else MARS_IN_USE; settle what was offered too, since a
 * number that was not told is lost. The records begin anew, so that transactions are counted from 1 again. Take the tape down before it: after
 * MARS_MEDIA and MARS_DEAD the mars is closed, and after MARS_NO_MEMORY it may be; a closed mars has no tape. */
int32_t mars_make(mars *m, const uint8_t *table, size_t table_len, uint8_t *number);
/* The name of a table by its number, from 0 on ("main" is 0); MARS_NO_TABLE if there is none. It is told as a value is by mars_get. */
int32_t mars_table(mars *m, uint8_t number, uint8_t *room, size_t room_size, uint64_t *len);

/* The tape. mars_piece answers MARS_NOTHING, MARS_WRITE (len bytes at the place at) or MARS_BARRIER, and changes nothing: it is the same piece until
 * mars_piece_done. There is none in a closed mars, nor after a piece that failed. */
int32_t mars_piece(mars *m, uint64_t *at, uint64_t *len);
/* Puts the bytes of that write from `skip` on into room, as many as it takes, and tells how many there are from there on. MARS_NO_PIECE if it is no
 * write. */
int32_t mars_piece_bytes(mars *m, uint64_t skip, uint8_t *room, size_t room_size, uint64_t *len);
/* The piece was done. You owe: the device has answered; a barrier has made all earlier writes durable; pieces are done in order. */
int32_t mars_piece_done(mars *m);
/* The piece failed, and may be done by half. You owe: it is not tried again. Each call that writes fails from now on: close, and open anew. */
int32_t mars_piece_failed(mars *m);
/* The moment of the last call; and the moment up to which the pieces of all calls were done. Both are 0 in a closed mars. */
uint64_t mars_moment(mars *m);
uint64_t mars_done_up_to(mars *m);

/* What a status means, in English. It is told as a value is by mars_get. */
void mars_text(int32_t status, uint8_t *room, size_t room_size, uint64_t *len);

#ifdef __cplusplus
}
#endif

#ifndef MARS_NO_FILES
#include <errno.h>
#include <fcntl.h>
#include <stdlib.h>
#include <sys/file.h>
#include <sys/mman.h>
#include <sys/stat.h>
#include <unistd.h>

/* An array in a file that no other program has open (an advisory lock, as `mars` takes it). Its records are those of &f->m. */
typedef struct mars_file {
    mars m;
    int fd;
    bool has_failed;
} mars_file;

static inline int mars_write_all(int fd, const uint8_t *bytes, size_t len, uint64_t at) {
    while (len > 0) {
        ssize_t n = pwrite(fd, bytes, len, (off_t)at);
        if (n < 0 && errno != EINTR) return -1;
        if (n > 0) bytes += n, len -= (size_t)n, at += (uint64_t)n;
    }
    return 0;
}

static inline int mars_read_all(int fd, uint8_t *bytes, size_t len) {
    for (size_t at = 0; at < len;) {
        ssize_t n = pread(fd, bytes + at, len - at, (off_t)at);
        if (n == 0) errno = EIO; /* it is shorter than it was */
        if (n == 0 || (n < 0 && errno != EINTR)) return -1;
        if (n > 0) at += (size_t)n;
    }
    return 0;
}

static inline int mars_sync_fd(int fd) {
    int done;
    do done = fdatasync(fd);
    while (done < 0 && errno == EINTR);
    return done;
}

/* Writes that lie side by side, which one call makes. They were taken down as done: a device may still lose a write before the next barrier, and the
 * run is made before that. */
typedef struct mars_run {
    uint64_t at;
    size_t len;
    uint8_t bytes[4096];
} mars_run;

static inline int mars_end_run(int fd, mars_run *run) {
    size_t len = run->len;
    run->len = 0;
    return mars_write_all(fd, run->bytes, len, run->at);
}

/* Does the next piece, a write: into the run, unless it lies elsewhere. */
static inline int mars_do_write(mars_file *f, mars_run *run, uint64_t at, uint64_t len) {
    for (uint64_t skip = 0; skip < len;) {
        bool is_next = at + skip == run->at + run->len && run->len < sizeof run->bytes;
        if (!is_next && mars_end_run(f->fd, run)) return -1;
        if (!is_next) run->at = at + skip;
        size_t room = sizeof run->bytes - run->len;
        uint64_t left = 0;
        mars_piece_bytes(&f->m, skip, run->bytes + run->len, room, &left);
        size_t taken = left < room ? (size_t)left : room;
        run->len += taken;
        skip += taken;
    }
    return 0;
}

/* Does the next piece, which is this one. Where there is none, it ends the run. */
static inline int mars_do_piece(mars_file *f, mars_run *run, int32_t kind, uint64_t at, uint64_t len) {
    if (kind == MARS_WRITE) return mars_do_write(f, run, at, len);
    if (mars_end_run(f->fd, run)) return -1;
    return kind == MARS_BARRIER ? mars_sync_fd(f->fd) : 0;
}

/* Makes durable what was committed. After a failure nothing is tried again, since the system may have thrown away what it could not write: close, and
 * open anew. */
static inline int32_t mars_sync(mars_file *f) {
    mars_run run;
    uint64_t at = 0, len = 0;
    int32_t kind = MARS_WRITE;
    run.at = 0;
    run.len = 0;
    while (!f->has_failed && kind != MARS_NOTHING) {
        kind = mars_piece(&f->m, &at, &len);
        if (mars_do_piece(f, &run, kind, at, len) == 0) {
            mars_piece_done(&f->m);
        } else {
            int why = errno;
            mars_piece_failed(&f->m);
            f->has_failed = true;
            errno = why;
        }
    }
    if (f->has_failed) return MARS_FILE;
    return f->m.is_open ? MARS_OK : MARS_IS_CLOSED;
}

/* Makes a fresh array in a new file. If it is refused, there is no new file. The name is durable once its folder is synced, which is yours. */
static inline int32_t mars_make_file(const char *path, uint8_t loggers, uint8_t callers, uint16_t entries, uint32_t pages) {
    uint64_t size = mars_size(loggers, callers, entries, pages);
    if (size == 0) return MARS_BAD_SHAPE;
    uint8_t *bytes = (uint8_t *)calloc(1, (size_t)size);
    if (!bytes) return MARS_NO_MEMORY;
    int32_t status = mars_format(bytes, (size_t)size, loggers, callers, entries, pages);
    int fd = status == MARS_OK ? open(path, O_RDWR | O_CREAT | O_EXCL | O_CLOEXEC, 0666) : -1;
    if (status == MARS_OK && fd < 0) status = MARS_FILE;
    if (fd >= 0 && (mars_write_all(fd, bytes, (size_t)size, 0) || fsync(fd))) status = MARS_FILE;
    int why = errno;
    if (fd >= 0 && status != MARS_OK) unlink(path);
    if (fd >= 0) close(fd);
    free(bytes);
    errno = why;
    return status;
}

/* The pages of the file themselves, so that an opening copies them once, straight into the library. They are all read here, where a fault is told:
 * NULL, and then they are read as any file is. */
static inline void *mars_map_all(int fd, size_t size) {
#ifdef MADV_POPULATE_READ
    void *bytes = size ? mmap(NULL, size, PROT_READ, MAP_PRIVATE, fd, 0) : MAP_FAILED;
    if (bytes == MAP_FAILED) return NULL;
    if (madvise(bytes, size, MADV_POPULATE_READ) == 0) return bytes;
    munmap(bytes, size);
#else
    (void)fd, (void)size;
#endif
    return NULL;
}

static inline int32_t mars_read_file(mars_file *f, uint8_t callers) {
    struct stat is;
    if (flock(f->fd, LOCK_EX | LOCK_NB) || fstat(f->fd, &is)) return MARS_FILE;
    size_t size = (size_t)is.st_size;
    void *map = mars_map_all(f->fd, size);
    uint8_t *bytes = map ? (uint8_t *)map : (uint8_t *)malloc(size ? size : 1);
    if (!bytes) return MARS_NO_MEMORY;
    int32_t status = !map && mars_read_all(f->fd, bytes, size) ? MARS_FILE : mars_open(&f->m, bytes, size, callers);
    int why = errno;
    if (map) munmap(map, size);
    else free(bytes);
    errno = why;
    return status;
}

/* Closes it. What was not committed is dropped, and what was not synced may be lost. */
static inline void mars_close_file(mars_file *f) {
    mars_close(&f->m);
    if (f->fd >= 0) close(f->fd);
    f->fd = -1;
}

/* Opens the array in a file for so many callers, and makes durable what the opening repaired. *f may hold anything; unless it is opened, it need not
 * be closed. */
static inline int32_t mars_open_file(mars_file *f, const char *path, uint8_t callers) {
    mars closed = MARS_CLOSED;
    f->m = closed;
    f->has_failed = false;
    f->fd = open(path, O_RDWR | O_CLOEXEC);
    if (f->fd < 0) return MARS_FILE;
    int32_t status = mars_read_file(f, callers);
    if (status == MARS_OK) status = mars_sync(f);
    if (status == MARS_OK) return MARS_OK;
    int why = errno;
    mars_close_file(f);
    errno = why;
    return status;
}
#endif
#endif
