/* Cuorfelt for hosts in C and C++: the callback table's writer, reader and normaliser, the timing sheet's analyser, and the executor as a machine
 * that moves tick by tick. GUIDE.md explains every word used here, and STATE.md the bytes of a state; cuorfelt_text.h has the
 * words of the refusals. Link libcuorfelt; it needs the C library's memcpy and memset alone, on x86-64.
 *
 * Memory. A slice is passed as a pointer and a length. Every function may be called with any bytes and any length and returns; it
 * allocates nothing and keeps nothing between calls. A pointer must be valid for its length, and may be null where the length is 0.
 * Memory that is written may not overlap other memory of the same call. Tables and states may lie at any address; a row of
 * uint16_t and the numbers of records lie at an even one, as C has it.
 * Threads. Any number of threads may call at once, if none writes memory that another one's call uses: a state belongs to
 * one call at a time, and so does a row, a buffer or a table that is normalised; else a table may be shared.
 * Stack. CUORFELT_STACK bytes suffice for any call. cuorfelt_tick was measured at 3,776 bytes, cuorfelt_analyse at 3,008; the rest is
 * for the loader, where it binds memcpy at the first call.
 *
 * A callback's index counts from 1, and is 0 where none is meant. */
#ifndef CUORFELT_H
#define CUORFELT_H

#include <stddef.h>
#include <stdint.h>

#ifdef __cplusplus
extern "C" {
#endif

/* The version of this header and of its library. A host is compiled anew where the first number differs; the second rises where
 * something is added or newly refused, the third where neither is so. */
#define CUORFELT_VERSION_MAJOR 2
#define CUORFELT_VERSION_MINOR 1
#define CUORFELT_VERSION_PATCH 0

/* Sizes. */
enum {
    CUORFELT_PLACES = 16,            /* callbacks of a table, at most; places that a lent row must have, at least */
    CUORFELT_ENTRY_PLACES = 8,       /* cost entries of a callback, at most */
    CUORFELT_HEADER_LENGTH = 16,     /* bytes of a table: a header, and a record for each callback */
    CUORFELT_RECORD_LENGTH = 32,
    CUORFELT_LONGEST_TABLE = 528,    /* bytes of a table of sixteen callbacks: a buffer that is long enough for any table */
    CUORFELT_RECORD_NUMBERS = 14,    /* numbers of a callback that is to be written */
    CUORFELT_STATE_LENGTH = 640,     /* bytes of a state */
    CUORFELT_STACK = 8192            /* bytes of stack that suffice for any call */
};

/* Limits. */
enum {
    CUORFELT_LONGEST = 60000,        /* the largest period, delay, jitter, horizon, cost entry and cost, in ticks */
    CUORFELT_DEFAULT_HORIZON = 60000, /* what a horizon of 0 means; to have it, give 0 */
    CUORFELT_MOST_WAITING = 255,     /* instances of a callback that wait, at most */
    CUORFELT_MOST_TICKS = 1000000000 /* ticks that a machine takes, at most */
};

/* The edition, byte 0 of a table, and the kind, byte 0 of a record. */
enum {
    CUORFELT_EDITION_ONE = 1,        /* timers overtake what a polling point took, as in ROS 2 up to Dashing */
    CUORFELT_EDITION_TWO = 2         /* timers wait for a polling point as the rest do, as in later releases */
};
enum {
    CUORFELT_TIMER = 1,
    CUORFELT_SUBSCRIPTION = 2,
    CUORFELT_SERVICE = 3,
    CUORFELT_CLIENT = 4
};

/* Numbers of refusals; cuorfelt_text.h says each in words. */
enum {
    CUORFELT_ACCEPTED = 0,
    CUORFELT_SHORT_HEADER = 1,
    CUORFELT_UNKNOWN_EDITION = 2,
    CUORFELT_WRONG_COUNT = 3,
    CUORFELT_WRONG_LENGTH = 4,
    CUORFELT_SPARE_NOT_ZERO = 5,
    CUORFELT_WRONG_SUPPLY = 6,
    CUORFELT_WRONG_HORIZON = 7,
    CUORFELT_WRONG_KIND = 8,
    CUORFELT_WRONG_NEXT = 9,
    CUORFELT_WRONG_ENTRIES = 10,
    CUORFELT_NAMED_TWICE = 11,
    CUORFELT_TIMER_NAMED = 12,
    CUORFELT_LOOP = 13,
    CUORFELT_WRONG_ARRIVALS = 14,
    CUORFELT_NO_WINDOW = 15,
    CUORFELT_TOO_MANY = 16,
    CUORFELT_SHORT_ROW = 17,
    CUORFELT_TICKS_SPENT = 18,
    CUORFELT_WRONG_COST = 19,
    CUORFELT_NOT_A_HEAD = 20,
    CUORFELT_QUEUE_FULL = 21,
    CUORFELT_WRONG_DELAY = 22,
    CUORFELT_SHORT_BUFFER = 23,
    CUORFELT_ABOVE_SUM = 24,
    CUORFELT_FAULTY_STATE = 29
};

/* A refusal: its number, and the callback that it is about (for 20 the place of a bit, which may be no callback's). Number 0: nothing is
 * refused, and the index is 0. */
typedef struct {
    uint8_t number;
    uint8_t index;
} cuorfelt_refusal;

/* A callback to be written: the fourteen numbers of its record by name, in their order. Entries beyond the used ones are 0. */
typedef struct {
    uint16_t kind;      /* CUORFELT_TIMER to CUORFELT_CLIENT */
    uint16_t next;      /* the callback that each completion activates, from 1; 0 ends the chain */
    uint16_t used;      /* m: how many of the entries are used, from 1 */
    uint16_t period;    /* T, J and d of a head; 0 throughout for a follower */
    uint16_t jitter;
    uint16_t distance;
    uint16_t entries[CUORFELT_ENTRY_PLACES]; /* E(1) to E(8) */
} cuorfelt_callback;

/* What the writer returns: the table's length in bytes, 0 where it refuses, and the refusal. */
typedef struct {
    uint32_t length;
    uint8_t number;
    uint8_t index;
} cuorfelt_written;

/* What the analyser returns: the window, 0 where it refuses, and the refusal. */
typedef struct {
    uint16_t window;
    uint8_t number;
    uint8_t index;
} cuorfelt_sheet;

/* The values of cuorfelt_reply.answer. */
enum {
    CUORFELT_REFUSED = 0,   /* none of the four: number says why */
    CUORFELT_NO_SUPPLY = 1,
    CUORFELT_IDLE = 2,
    CUORFELT_RAN = 3,       /* callback ran, instance of it */
    CUORFELT_FINISHED = 4   /* the same, and it finished at the time after this tick */
};

/* The reply of a tick. */
typedef struct {
    uint32_t instance;  /* of the callback named, from 1; 0 where none is named */
    uint8_t number;     /* of the refusal; 0: the tick was taken */
    uint8_t index;      /* of the refusal */
    uint8_t answer;     /* CUORFELT_REFUSED to CUORFELT_FINISHED */
    uint8_t callback;   /* that ran or finished, from 1; 0 where none did */
    uint8_t started;    /* 1 where the instance named started in this tick, else 0 */
    uint8_t polled;     /* 1 where a polling point fell in this tick, else 0 */
    uint8_t gathered;   /* how many callbacks the poll put in the cache; 0 without one */
    uint16_t folded;    /* the timers of the mask whose beat was folded, bit i - 1 for callback i: an instance of it waited that had not started.
                         * Such a beat is missed: it is no activation, and nothing waits or runs for it. 0 where the tick was refused */
} cuorfelt_reply;

/* The length of a state in bytes, CUORFELT_STATE_LENGTH. */
size_t cuorfelt_state_length(void);

/* Reads a table and returns its refusal, or number 0 where it is accepted. */
cuorfelt_refusal cuorfelt_read(const uint8_t *table, size_t length);

/* Replaces the cost entries of a table in place. Since 2.1; call it once for each table made before, when 24 was no refusal. Each of the used entries
 * becomes the least sum over all ways to split its number of instances, left whole too, so that 3 and 9 become 3 and 6. What is left is a table that cuorfelt_read
 * accepts; no other byte changes, and a table without fault 24 does not change at all. No bound grows.
 * Refusals: those of cuorfelt_read, in its order, without 24. A refusal leaves all bytes as they were. */
cuorfelt_refusal cuorfelt_normalise(uint8_t *table, size_t length);

/* Writes a table of `count` callbacks, 16 + 32 * count bytes, to the beginning of the buffer, and returns its length. Bytes of the buffer past
 * the table are not touched. What is written is a table that cuorfelt_read accepts, and holds the numbers as they were given, a horizon of 0 too.
 * budget, period, horizon and delay are Q, P, H and Z. `records` has CUORFELT_RECORD_NUMBERS numbers for each callback, in the order of
 * cuorfelt_callback: for an array of these pass &callbacks[0].kind. `numbers` says how many numbers, not bytes, there are. One that is not
 * there reads as 0; those past the last callback are ignored, and must be there all the same if `numbers` counts them. C cuts a number
 * above 65,535 down as it is passed or stored: test for that before.
 * Refusals: those of cuorfelt_read that numbers can meet, in its order (2, 3, 6, 22, 7; for each callback in turn 8, 9, 10, 24, and 5 where an entry
 * beyond the used ones is not 0; 11 to 14), and a number that is too large for its byte is refused like any other wrong one; then 23, the buffer is
 * shorter than the table. A refusal touches no byte of the buffer and returns length 0. */
cuorfelt_written cuorfelt_write(uint16_t edition, uint16_t count, uint16_t budget, uint16_t period, uint16_t horizon, uint16_t delay,
                                const uint16_t *records, size_t numbers, uint8_t *buffer, size_t length);

/* Analyses a table of n callbacks: returns the window and writes the bounds of callbacks 1 to n to row[0] to row[n - 1].
 * The bound of a timer of edition 1 is the smaller of two (since 1.4; GUIDE.md, 'The sheet').
 * Places of the row from n on are not touched. A refusal, 17 (fewer than 16 places), any that cuorfelt_read gives, 15 or 16, touches no
 * place of the row and returns window 0. */
cuorfelt_sheet cuorfelt_analyse(const uint8_t *table, size_t length, uint16_t *row, size_t places);

/* Starts a machine: writes the fresh state of the table to the lent bytes, all of them.
 * Refusals: 29 where state_length is not cuorfelt_state_length(), then any that cuorfelt_read gives. A refusal leaves the lent bytes as
 * they were: if they held a state, they still do, and ticks go on with it. */
cuorfelt_refusal cuorfelt_start(const uint8_t *table, size_t length, uint8_t *state, size_t state_length);

/* Takes one tick on the state in the lent bytes: arrivals in the mask (bit i - 1 for callback i, heads only), whether the tick is supplied
 * (0, or anything else), and the cost of an instance that starts in it (1 to 60,000, used or not).
 * Where the number is 0 the lent bytes hold the next state. Refusals, in this order: 29 (another length, or bytes that hold no state),
 * 18 (1,000,000,000 ticks taken), 19 (the cost), 20 (the mask), 21 (255 waiting, never of a timer). A refusal leaves the lent bytes as they
 * were, and the tick is not counted. */
cuorfelt_reply cuorfelt_tick(uint8_t *state, size_t state_length, uint16_t mask, uint8_t supplied, uint32_t cost);

#ifdef __cplusplus
}
#endif

#endif
