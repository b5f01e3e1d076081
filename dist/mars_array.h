/* The array of MARS alone for C: plain data that is written by editable atomic writes, for firmware and whoever keeps records of his own.
 *
 * The data is so many bytes, at addresses from 0 on. A write goes into the log of a number, that is, of a transaction; a commit of that number
 * writes all that it has logged into the data at once, whatever happens meanwhile. Until then the log can be read, edited, cut off and dropped.
 *
 * The library computes, and makes no call of the system but malloc, realloc and free. An array lies in memory, and with it a tape of what is
 * still to be done on the device, in order: writes and barriers. Take it down from the front after a call: read a piece by mars_array_piece, do it on
 * the device, say mars_array_piece_done, and so on until there is none. What was committed is durable then: whatever a loss of power leaves on the
 * device opens with the data as it is. While the tape is taken down, a loss of power leaves the data before each commit or after it, and it
 * leaves no earlier data than that at a moment (mars_array_moment) which mars_array_done_up_to has reached.
 *
 * What the library cannot know is yours to see to, at every function:
 *   - `a` leads to a mars_array that holds MARS_ARRAY_CLOSED or what a function of this header left there, and nobody else changes it or copies it.
 *     One call at a time uses it; different ones may be used by different threads.
 *   - No pointer is null, and none leads into another argument. A pointer before a length leads to as many bytes as that says, which may be 0.
 *   - malloc, realloc and free are those of one allocator, and no function is called from a signal handler.
 * All else is checked, and answered by a status. No call changes what its out-pointers lead to but as its comment says. After a status other than
 * MARS_ARRAY_OK and MARS_ARRAY_MEDIA nothing has changed. */
#ifndef MARS_ARRAY_H
#define MARS_ARRAY_H
#include <stdbool.h>
#include <stddef.h>
#include <stdint.h>
#ifdef __cplusplus
extern "C" {
#endif

/* An array, open or closed. Begin with MARS_ARRAY_CLOSED, and leave both fields alone. */
typedef struct mars_array {
    void *kept;
    bool is_open;
} mars_array;

#define MARS_ARRAY_CLOSED \
    { 0, false }

/* What a call answers. The numbers stay what they are. */
enum {
    MARS_ARRAY_OK,
    MARS_ARRAY_UNKNOWN,   /* the array has no such number, or the number has no log */
    MARS_ARRAY_LOG_FULL,  /* a logger has no entries left for the parts of the write */
    MARS_ARRAY_MEDIA,     /* memory ran out in a write, or a piece had failed: close, and open anew from what the device holds */
    MARS_ARRAY_DEAD,      /* so it was before */
    MARS_ARRAY_NO_MEMORY,
    MARS_ARRAY_NOT_MARS,  /* the bytes hold no array */
    MARS_ARRAY_BAD_SHAPE, /* there is no array of this shape, or it has another length */
    MARS_ARRAY_BAD_ROW,   /* a commit on the device is damaged */
    MARS_ARRAY_BAD_DEPTH, /* it is more than MARS_ARRAY_DEPTH_MAX */
    MARS_ARRAY_BAD_RANGE, /* the range reaches behind the data or behind the part, or a write has no bytes */
    MARS_ARRAY_BAD_PART,  /* the log has no such part */
    MARS_ARRAY_IN_USE,    /* the number has a log: commit or abort it */
    MARS_ARRAY_NO_PIECE,  /* there is nothing to be done, or no write */
    MARS_ARRAY_IS_CLOSED, /* the mars_array is closed */
    MARS_ARRAY_IS_OPEN    /* the mars_array is open: close it first */
};

/* What mars_array_piece answers. */
enum { MARS_ARRAY_NOTHING, MARS_ARRAY_WRITE, MARS_ARRAY_BARRIER };

/* A write is cut into parts at the multiples of MARS_ARRAY_PAGE, and each part takes an entry of a logger: page p belongs to logger p % loggers, and
 * each number has `entries` entries at each logger. So a write is never too long for an empty log if it has at most MARS_ARRAY_WRITE_MAX bytes. */
enum {
    MARS_ARRAY_PAGE = 512,
    MARS_ARRAY_LOGGERS_MAX = 8,
    MARS_ARRAY_NUMBERS_MAX = 64,
    MARS_ARRAY_ENTRIES_MIN = 8,
    MARS_ARRAY_ENTRIES_MAX = 64,
    MARS_ARRAY_PAGES_MIN = 4,
    MARS_ARRAY_PAGES_MAX = 4096,
    MARS_ARRAY_DEPTH_MAX = 64,
    MARS_ARRAY_WRITE_MAX = (MARS_ARRAY_ENTRIES_MIN - 1) * MARS_ARRAY_PAGE
};

/* How many bytes an array of this shape takes: 1 to 8 loggers, 1 to 64 numbers, 8 to 64 entries of a number at a logger, and an even number of
 * pages of a logger, 4 to 4096. It is 0 if there is none of this shape. Its data is loggers * pages * MARS_ARRAY_PAGE bytes. */
uint64_t mars_array_size(uint8_t loggers, uint8_t numbers, uint16_t entries, uint32_t pages);
/* Makes a new array of this shape in the bytes, which are as many as mars_array_size tells. Its data is zero. Write the bytes to the device, and make
 * them durable. If it is refused, they are what they were. */
int32_t mars_array_format(uint8_t *bytes, size_t size, uint8_t loggers, uint8_t numbers, uint16_t entries, uint32_t pages);

/* Opens the array in a copy of these bytes, as a loss of power left them. At most `depth` commits may wait until their data is written to its place:
 * 0 to MARS_ARRAY_DEPTH_MAX. The mars_array is closed before, and at MARS_ARRAY_OK it is open, and no number has a log. You owe: the bytes are all
 * that the device holds, and durable there. What the opening repaired is on the tape. */
int32_t mars_array_open(mars_array *a, const uint8_t *bytes, size_t size, uint8_t depth);
/* Closes it, if it is open, and frees its memory. What was not committed is dropped; what is still on the tape is too. */
void mars_array_close(mars_array *a);
/* How many bytes its data has: 0 of a closed one. */
uint64_t mars_array_len(mars_array *a);

/* Numbers are 0 to one less than the shape says. A number has a log from its first write to its commit or abort.
 *
 * Logs a write of these bytes at the address `at`, and tells how many parts the number has logged by now. */
int32_t mars_array_log_write(mars_array *a, uint8_t number, uint64_t at, const uint8_t *bytes, size_t len, uint64_t *parts);
/* Writes all that the number has logged into the data at once, in its order, and frees the number. */
int32_t mars_array_commit(mars_array *a, uint8_t number);
/* Commits several numbers at once, that of the lowest number first: number t is one of them where bit t of `numbers` is 1. */
int32_t mars_array_commit_group(mars_array *a, uint64_t numbers);
/* Drops all that the number has logged, and frees the number. */
int32_t mars_array_abort(mars_array *a, uint8_t number);
/* Commits the parts of the log from the position `offset` on, which stay whatever becomes of the rest. The number keeps the parts before. */
int32_t mars_array_nested_top(mars_array *a, uint8_t number, uint32_t offset);
/* Drops the parts of the log from the position `offset` on. */
int32_t mars_array_partial_abort(mars_array *a, uint8_t number, uint32_t offset);
/* A transaction of one write, under a number that has no log before it and has none after it. */
int32_t mars_array_atomic_write(mars_array *a, uint8_t number, uint64_t at, const uint8_t *bytes, size_t len);
/* Tells the part of the log at a position, from 0 on: the address to which it goes, and its bytes. The first room_size of them are put into room, and
 * how many it has, at most MARS_ARRAY_PAGE, into len. If it is refused, all three stay as they were. */
int32_t mars_array_log_read(mars_array *a, uint8_t number, uint32_t part, uint64_t *at, uint8_t *room, size_t room_size, uint64_t *len);
/* Replaces bytes of the part of the log at a position, from its byte `from` on. */
int32_t mars_array_log_edit(mars_array *a, uint8_t number, uint32_t part, uint32_t from, const uint8_t *bytes, size_t len);
/* Fills the room with the data from the address `at` on: what was committed. At MARS_ARRAY_MEDIA the room holds anything. */
int32_t mars_array_read(mars_array *a, uint64_t at, uint8_t *room, size_t room_size);

/* The tape. mars_array_piece answers MARS_ARRAY_NOTHING, MARS_ARRAY_WRITE (len bytes at the place at) or MARS_ARRAY_BARRIER, and changes nothing: it
 * is the same piece until mars_array_piece_done. There is none in a closed mars_array, nor after a piece that failed. */
int32_t mars_array_piece(mars_array *a, uint64_t *at, uint64_t *len);
/* Puts the bytes of that write from `skip` on into room, as many as it takes, and tells how many there are from there on. MARS_ARRAY_NO_PIECE if it
 * is no write. */
int32_t mars_array_piece_bytes(mars_array *a, uint64_t skip, uint8_t *room, size_t room_size, uint64_t *len);
/* The piece was done. You owe: the device has answered; a barrier has made all earlier writes durable; pieces are done in order. */
int32_t mars_array_piece_done(mars_array *a);
/* The piece failed, and may be done by half. You owe: it is not tried again. Each call that writes fails from now on: close, and open anew. */
int32_t mars_array_piece_failed(mars_array *a);
/* The moment of the last call; and the moment up to which the pieces of all calls were done. Both are 0 in a closed mars_array. */
uint64_t mars_array_moment(mars_array *a);
uint64_t mars_array_done_up_to(mars_array *a);

/* What a status means, in English. The first room_size bytes of the text are put into room, and its whole length into len. */
void mars_array_text(int32_t status, uint8_t *room, size_t room_size, uint64_t *len);

#ifdef __cplusplus
}
#endif
#endif
