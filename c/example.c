/* The logs of an e-book reader: the writers of page turns and of crashes share a pool of 8 slots, each with serials of its own. Three
 * entries are written, one of them too long for the pool; they are read and released, one of them twice and one for the wrong
 * writer. Then the same memories are a pool of 16 slots, in which the text to be spoken is read ahead.
 * c/run builds it and compares what it prints. */
#include "buffer_pool.h"

#include <stdio.h>
#include <stdlib.h>
#include <string.h>

/* The memories of the log, and where an entry goes that leaves the overflow. */
static uint8_t pool[32];
static uint8_t overflow[24];
static uint8_t page[sizeof overflow];

static buffer_pool_record record;

/* The callers. */
enum {
    PAGE_TURNS = 0,
    CRASHES = 1,
    SPEECH = 2,
    NOBODY = BUFFER_POOL_CALLERS
};

/* Ends the program if a call that must be done was refused. */
static void done(const char *call, uint64_t refusal)
{
    if (refusal != BUFFER_POOL_DONE) {
        printf("%s: refused with %u\n", call, (unsigned)refusal);
        exit(1);
    }
}

/* The first byte of a place. */
static uint8_t *bytes_at(buffer_pool_place place)
{
    return (place.memory == BUFFER_POOL_OVERFLOW_MEMORY ? overflow : pool) + place.start;
}

/* Makes a new pool of the memories. */
static void make_pool(size_t slots)
{
    buffer_pool_created created = buffer_pool_new(slots, pool, sizeof pool, overflow, sizeof overflow);
    done("new", created.refusal);
    record = created.record;
}

static buffer_pool_taken take(uint64_t caller)
{
    return buffer_pool_take(&record, pool, sizeof pool, overflow, sizeof overflow, caller, page, sizeof page);
}

/* Writes one entry of a caller: reserve, write, commit, take. */
static buffer_pool_taken write_bytes(uint64_t caller, const char *text, size_t len)
{
    buffer_pool_reserved reserved =
        buffer_pool_reserve(&record, pool, sizeof pool, overflow, sizeof overflow, len);
    done("reserve", reserved.refusal);
    memcpy(bytes_at(reserved.place), text, len);

    buffer_pool_placed frame = buffer_pool_commit(&record, pool, sizeof pool, overflow, sizeof overflow, len);
    done("commit", frame.refusal);

    buffer_pool_taken taken = take(caller);
    done("take", taken.refusal);
    return taken;
}

/* The same with a whole text. */
static buffer_pool_taken write_entry(uint64_t caller, const char *text)
{
    return write_bytes(caller, text, strlen(text));
}

/* Prints an entry that lives in the pool, as its view shows it. */
static void print_slice(const char *name, buffer_pool_handle handle)
{
    buffer_pool_placed view =
        buffer_pool_slice(&record, pool, sizeof pool, overflow, sizeof overflow, handle);
    done("slice", view.refusal);
    printf("%s: caller %u, serial %u, slot %u, start %u, length %u: %.*s\n", name, (unsigned)handle.caller,
           (unsigned)handle.serial, (unsigned)handle.slot, (unsigned)handle.start, (unsigned)handle.length,
           (int)view.place.length, (const char *)bytes_at(view.place));
}

/* Prints an entry that was copied out of the overflow. */
static void print_copied(const char *name, buffer_pool_taken taken)
{
    printf("%s: slot %u, copied %d: %.*s\n", name, (unsigned)taken.handle.slot, (int)taken.copied, (int)taken.copied,
           (const char *)page);
}

/* Reserves the next frame, and prints where it lies. */
static void print_next(uint64_t len)
{
    buffer_pool_reserved next = buffer_pool_reserve(&record, pool, sizeof pool, overflow, sizeof overflow, len);
    done("reserve", next.refusal);
    printf("next: start %d, length %d, mode %u, changes %u\n", (int)next.place.start, (int)next.place.length,
           (unsigned)record.mode, (unsigned)next.changes);
}

static uint8_t release(buffer_pool_handle handle)
{
    return buffer_pool_release(&record, pool, sizeof pool, overflow, sizeof overflow, handle);
}

/* The log, in a pool of 8 slots. */
static void keep_log(void)
{
    make_pool(8);

    buffer_pool_taken first = write_entry(PAGE_TURNS, "page 12");
    buffer_pool_taken second = write_entry(CRASHES, "crash in 41 s");
    print_slice("first", first.handle);
    print_slice("second", second.handle);

    /* 20 bytes of the pool are held, so 20 more go to the overflow. */
    print_copied("third", write_entry(PAGE_TURNS, "page 14, large print"));

    done("release", release(first.handle));
    printf("first released, live slots %02x\n", (unsigned)record.live);

    /* A refused call leaves the record as it was, byte for byte. */
    buffer_pool_record before = record;
    unsigned refusal = release(first.handle);
    printf("first released again: refused with %u, record %s\n", refusal,
           memcmp(&before, &record, sizeof record) == 0 ? "as it was" : "changed");

    /* The first had the serial of the second, under another caller: the caller is part of the name. */
    buffer_pool_handle wrong = second.handle;
    wrong.caller = PAGE_TURNS;
    printf("second released for page turns: refused with %u\n", (unsigned)release(wrong));

    done("release", release(second.handle));
    printf("second released, live slots %02x\n", (unsigned)record.live);
    printf("take for nobody: refused with %u\n", (unsigned)take(NOBODY).refusal);

    /* No slice is live, so the whole pool is free again. */
    print_next(sizeof pool);
}

/* Text that is read ahead in pieces of 2 bytes, in a pool of 16 slots. */
static void read_ahead(void)
{
    enum { SLOTS = 16, PIECE = 2 };
    const char *text = "Call me Ishmael. Some years ago-never mind how long";
    buffer_pool_handle pieces[SLOTS];

    make_pool(SLOTS);
    for (int at = 0; at < SLOTS; at++) {
        pieces[at] = write_bytes(SPEECH, text + at * PIECE, PIECE).handle;
    }
    print_slice("piece 1", pieces[0]);
    print_slice("piece 16", pieces[SLOTS - 1]);
    printf("all pieces held, live slots %04x\n", (unsigned)record.live);
    print_copied("piece 17", write_bytes(SPEECH, text + SLOTS * PIECE, PIECE));

    /* Nine pieces were spoken: their 18 bytes are the front of the pool. */
    for (int at = 0; at < 9; at++) {
        done("release", release(pieces[at]));
    }
    printf("nine pieces released, live slots %04x\n", (unsigned)record.live);
    print_next(18);

    printf("a pool of 9 slots: refused with %u\n",
           (unsigned)buffer_pool_new(9, pool, sizeof pool, overflow, sizeof overflow).refusal);
}

int main(void)
{
    keep_log();
    read_ahead();
    return 0;
}
