/* The proved frame pool, for C and C++ on x86-64. Link target/staticlib/libbuffer_pool_c.a.
 *
 * A frame is the bytes being gathered for one entry. A reservation is the range last offered to extend it. A slice is a
 * finished frame that lives in the pool until it is released; a pool has 8 or 16 slots for slices, as new is told. The overflow is
 * a second memory, which takes a frame that the pool has no place for; such a frame is copied out when it is taken.
 *
 * Four callers, 0 to 3, can share a pool. A take names its caller, and each caller's slices have serials of their own, 1, 2, 3, ..
 * without gaps. So two live slices may have one serial, under two callers: a slice is named by its whole handle.
 *
 * A pool is a record and two lent memories: the pool memory and the overflow. Its owner keeps all three and lends them to
 * every call. No call allocates, waits, or keeps a pointer. Every call answers, for every record, handle, caller, slot count and
 * length, with a result or a refusal:
 *
 *   1  the record fails the soundness test (among others: a slot count that is neither 8 nor 16, a mode that is no mode, a bit of
 *      live beyond the slots')
 *   2  a lent memory's length is not the record's
 *   3  new: either memory has more than 1,048,576 bytes
 *   4  reserve: the overflow would be used, and frame and reservation together exceed it
 *   5  commit: the length exceeds the reservation
 *   6  take: the frame lies in the overflow and is longer than the destination
 *   7  release, slice: the handle's slot is not one of 1 to the pool's slot count or not live, its caller is above 3, or start,
 *      length, serial or caller are not that slot's
 *   8  take: the frame is not empty, lies in the pool, and all 4,294,967,295 serials of the caller were given
 *  12  take: the caller is above 3
 *  16  new: the slot count is neither 8 nor 16
 *
 * They are tested in this order: 1, 2, then the call's own, of a take 12 before 6 and 8; new tests 16, then 3, and gives no other. 9
 * and 10 are of a trace file and no call gives them. A refused call changes nothing: the record, both memories and the destination
 * keep every byte, and every number of its result is 0 but the refusal and, of a refused new, the record's slot count, which is 8.
 * What is not refused has refusal 0.
 *
 * No struct has padding: every byte belongs to a field. A record can be stored, and records and results be compared, as bytes.
 * Every number of a result has 64 bits, but for those of a record or handle in it; release gives its refusal alone, as a byte.
 *
 * What the program must see to, as no callee can: a pointer points to as many bytes as the length beside it says, also if that is 0
 * (any pointer that is not null will do then); record, pool memory, overflow and destination have no byte in common; one call at
 * a time is made on a pool.
 *
 * How long a place is right. A slice's place stays from its take to its release, and no call writes its bytes. The frame's place
 * stays until the next reserve, which may move the frame, or take; commit and truncate change its length alone. The
 * reservation's place stays until the next reserve, commit, truncate or take. A refused call ends nothing.
 */
#ifndef BUFFER_POOL_H
#define BUFFER_POOL_H

#include <stddef.h>
#include <stdint.h>

#ifdef __cplusplus
extern "C" {
#endif

/* The most slots that a pool may have, how many callers can take, and the most bytes that either memory may have. */
#define BUFFER_POOL_MOST_SLOTS 16
#define BUFFER_POOL_CALLERS 4
#define BUFFER_POOL_BYTE_LIMIT 1048576

/* Where the frame is gathered: the numbers of a record's mode. */
enum {
    BUFFER_POOL_BACK = 0,    /* after the slices of the back */
    BUFFER_POOL_FRONT = 1,   /* in the front, below the slices of the back */
    BUFFER_POOL_OVERFLOW = 2 /* in the overflow */
};

/* Which memory a place lies in. */
enum {
    BUFFER_POOL_POOL_MEMORY = 0,
    BUFFER_POOL_OVERFLOW_MEMORY = 1
};

/* The refusals. */
enum {
    BUFFER_POOL_DONE = 0,
    BUFFER_POOL_UNSOUND = 1,
    BUFFER_POOL_WRONG_LENGTH = 2,
    BUFFER_POOL_MEMORY_TOO_LONG = 3,
    BUFFER_POOL_OVERFLOW_TOO_SHORT = 4,
    BUFFER_POOL_COMMIT_TOO_LONG = 5,
    BUFFER_POOL_DESTINATION_TOO_SHORT = 6,
    BUFFER_POOL_NOT_LIVE = 7,
    BUFFER_POOL_NO_SERIALS = 8,
    BUFFER_POOL_UNKNOWN_CALLER = 12,
    BUFFER_POOL_WRONG_SLOT_COUNT = 16
};

/* The pool's record. buffer_pool_new makes it and the calls change it; its owner may read and copy it. It may be kept anywhere,
 * but its bytes are the pool's only knowledge of its memories: two copies of a record used on the same memories are two pools
 * that do not know of each other. Records of 8 and of 16 slots have one size; entries above the slot count are never read, and a
 * reserve may set their starts and lengths to 0. */
typedef struct {
    uint64_t capacity;                        /* length of the pool memory */
    uint64_t overflow;                        /* length of the overflow */
    size_t slots;                             /* the slot count, 8 or 16 */
    uint32_t starts[BUFFER_POOL_MOST_SLOTS];  /* start, */
    uint32_t lengths[BUFFER_POOL_MOST_SLOTS]; /* length */
    uint32_t serials[BUFFER_POOL_MOST_SLOTS]; /* and serial of the slice last taken in each slot; slot 1 comes first */
    uint32_t given[BUFFER_POOL_CALLERS];      /* serials given to each caller; caller 0 comes first */
    uint8_t callers[BUFFER_POOL_MOST_SLOTS];  /* caller of the slice last taken in each slot */
    uint32_t live;                            /* slot p is live if the bit 1 << (slots - p) is set; no other bit is */
    uint32_t mode;                            /* BUFFER_POOL_BACK, .._FRONT or .._OVERFLOW */
    size_t back_start;                        /* the slots before the back */
    size_t back_len;                          /* the slots of the back */
    size_t used;                              /* slots used */
    uint64_t raw_offset;                      /* start */
    uint64_t raw_len;                         /* and length of a frame in the pool */
    size_t front_back_start;                  /* slots of the front; these three are read only in mode front */
    uint64_t front_byte_capacity;             /* bytes of the front */
    size_t front_len;                         /* used slots of the front */
    uint64_t kept;                            /* bytes kept in the overflow */
    uint64_t cursor;                          /* length of a frame in the overflow */
    uint64_t reserved;                        /* length of the reservation, 0 once it is spent */
} buffer_pool_record;

/* A range of bytes: length bytes from start on, in the memory that is named. */
typedef struct {
    uint64_t start;
    uint64_t length;
    uint64_t memory; /* BUFFER_POOL_POOL_MEMORY or BUFFER_POOL_OVERFLOW_MEMORY */
} buffer_pool_place;

/* Names a slice. It is plain data: once the slice is released, the handle is refused with 7. Two live slices may have one serial
 * under two callers, so handles are compared whole. */
typedef struct {
    uint32_t start;  /* the slice's place in the pool memory */
    uint32_t length;
    uint32_t serial; /* 1, 2, 3, .. over the takes of its caller that gave a slice */
    uint16_t slot;   /* 1 to the pool's slot count */
    uint16_t caller; /* 0 to 3 */
} buffer_pool_handle;

/* What a reserve gives. */
typedef struct {
    buffer_pool_place place; /* the reservation */
    uint64_t changes;        /* how often the mode changed, at most twice */
    uint64_t refusal;
} buffer_pool_reserved;

/* What commit, truncate and the views give. */
typedef struct {
    buffer_pool_place place;
    uint64_t refusal;
} buffer_pool_placed;

/* What a take gives: a slice, or with handle.slot 0 the count of bytes that were copied to the destination. */
typedef struct {
    buffer_pool_handle handle;
    uint64_t copied; /* 0 for a slice and for an empty frame */
    uint64_t refusal;
} buffer_pool_taken;

/* What new gives. */
typedef struct {
    buffer_pool_record record;
    uint64_t refusal;
} buffer_pool_created;

/* The layout that the archive was made for: the size of each struct, which is also the sum of its fields' sizes. An array type of -1
 * elements does not compile. */
#define BUFFER_POOL_OF(type, field) sizeof(((buffer_pool_##type *)0)->field)
#define BUFFER_POOL_LAYOUT(type, bytes, fields) \
    typedef char buffer_pool_##type##_has_##bytes##_bytes_and_no_padding \
        [sizeof(buffer_pool_##type) == bytes && (fields) == bytes ? 1 : -1]

BUFFER_POOL_LAYOUT(record, 344,
                   BUFFER_POOL_OF(record, capacity) + BUFFER_POOL_OF(record, overflow) + BUFFER_POOL_OF(record, slots)
                       + BUFFER_POOL_OF(record, starts) + BUFFER_POOL_OF(record, lengths) + BUFFER_POOL_OF(record, serials)
                       + BUFFER_POOL_OF(record, given) + BUFFER_POOL_OF(record, callers) + BUFFER_POOL_OF(record, live)
                       + BUFFER_POOL_OF(record, mode) + BUFFER_POOL_OF(record, back_start)
                       + BUFFER_POOL_OF(record, back_len) + BUFFER_POOL_OF(record, used)
                       + BUFFER_POOL_OF(record, raw_offset) + BUFFER_POOL_OF(record, raw_len)
                       + BUFFER_POOL_OF(record, front_back_start)
                       + BUFFER_POOL_OF(record, front_byte_capacity) + BUFFER_POOL_OF(record, front_len)
                       + BUFFER_POOL_OF(record, kept) + BUFFER_POOL_OF(record, cursor) + BUFFER_POOL_OF(record, reserved));
BUFFER_POOL_LAYOUT(place, 24, BUFFER_POOL_OF(place, start) + BUFFER_POOL_OF(place, length) + BUFFER_POOL_OF(place, memory));
BUFFER_POOL_LAYOUT(handle, 16,
                   BUFFER_POOL_OF(handle, start) + BUFFER_POOL_OF(handle, length) + BUFFER_POOL_OF(handle, serial)
                       + BUFFER_POOL_OF(handle, slot) + BUFFER_POOL_OF(handle, caller));
BUFFER_POOL_LAYOUT(reserved, 40,
                   BUFFER_POOL_OF(reserved, place) + BUFFER_POOL_OF(reserved, changes) + BUFFER_POOL_OF(reserved, refusal));
BUFFER_POOL_LAYOUT(placed, 32, BUFFER_POOL_OF(placed, place) + BUFFER_POOL_OF(placed, refusal));
BUFFER_POOL_LAYOUT(taken, 32,
                   BUFFER_POOL_OF(taken, handle) + BUFFER_POOL_OF(taken, copied) + BUFFER_POOL_OF(taken, refusal));
BUFFER_POOL_LAYOUT(created, 352, BUFFER_POOL_OF(created, record) + BUFFER_POOL_OF(created, refusal));

#undef BUFFER_POOL_LAYOUT
#undef BUFFER_POOL_OF

/* Makes a pool of 8 or 16 slots. The pool memory is filled with zeros; the overflow counts as empty and its bytes stay.
 * Refuses with 16 and 3; the record is then that of a new pool of 8 slots whose two lengths are 0. */
buffer_pool_created buffer_pool_new(size_t slots, uint8_t *pool, size_t pool_len, const uint8_t *overflow,
                                    size_t overflow_len);

/* Makes room for len more bytes after the frame and gives their place and the count of mode changes. May move the frame within
 * the pool, to the overflow, or back; a reservation not yet committed is given up. The bytes offered are those that earlier
 * frames left there, or zeros.
 * Refuses with 1, 2 and 4; mode, frame and reservation then stay, too. */
buffer_pool_reserved buffer_pool_reserve(buffer_pool_record *record, uint8_t *pool, size_t pool_len, uint8_t *overflow,
                                         size_t overflow_len, uint64_t len);

/* The first n bytes of the reservation join the frame; gives the frame's place. The reservation is spent: empty, at the frame's
 * end.
 * Refuses with 1, 2 and 5; the reservation then stays, too. */
buffer_pool_placed buffer_pool_commit(buffer_pool_record *record, const uint8_t *pool, size_t pool_len,
                                      const uint8_t *overflow, size_t overflow_len, uint64_t n);

/* The frame keeps at most its first n bytes; gives the frame's place. The reservation is spent, even if nothing is cut.
 * Refuses with 1 and 2. */
buffer_pool_placed buffer_pool_truncate(buffer_pool_record *record, const uint8_t *pool, size_t pool_len,
                                        const uint8_t *overflow, size_t overflow_len, uint64_t n);

/* Finishes the frame for a caller, 0 to 3. A frame in the pool becomes a slice with the caller's next serial, and its handle is
 * given. A frame in the overflow is copied to the start of the destination, and its length is given; all other bytes of the
 * destination stay. An empty frame gives slot 0 and length 0. The next frame is empty, and the reservation is spent.
 * Refuses with 1, 2, 12, 6 and 8, 12 also if the frame is empty; frame, reservation and destination then stay, too. A destination
 * as long as the overflow is never too short. */
buffer_pool_taken buffer_pool_take(buffer_pool_record *record, const uint8_t *pool, size_t pool_len, uint8_t *overflow,
                                   size_t overflow_len, uint64_t caller, uint8_t *destination, size_t destination_len);

/* Frees the slice's slot; its bytes may be used by the next reserve. Gives the refusal, or 0.
 * Refuses with 1, 2 and 7. */
uint8_t buffer_pool_release(buffer_pool_record *record, const uint8_t *pool, size_t pool_len, const uint8_t *overflow,
                            size_t overflow_len, buffer_pool_handle handle);

/* The views: where the frame, the reservation or a slice lies, so that its bytes can be read and written there, never a copy. They
 * change nothing. A refused view has length 0.
 * Refuse with 1 and 2; slice also with 7. */
buffer_pool_placed buffer_pool_frame(const buffer_pool_record *record, const uint8_t *pool, size_t pool_len,
                                     const uint8_t *overflow, size_t overflow_len);

buffer_pool_placed buffer_pool_reservation(const buffer_pool_record *record, const uint8_t *pool, size_t pool_len,
                                           const uint8_t *overflow, size_t overflow_len);

buffer_pool_placed buffer_pool_slice(const buffer_pool_record *record, const uint8_t *pool, size_t pool_len,
                                     const uint8_t *overflow, size_t overflow_len, buffer_pool_handle handle);

#ifdef __cplusplus
}
#endif

#endif
