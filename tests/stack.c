/* How much stack the library's functions use: each runs on a stack of its own that was painted before.
 *
 *     stack TABLE..
 *
 * Prints the most that each function used on these tables, its return address included; ends with 1 where that is more than CUORFELT_STACK. */
#include "cuorfelt.h"

#include <stdio.h>
#include <string.h>
#include <ucontext.h>

enum { ROOM = 1 << 16, PAINT = 0xa5 };

static uint8_t room[ROOM];
static ucontext_t outside, inside;

static uint8_t table[CUORFELT_LONGEST_TABLE], state[CUORFELT_STATE_LENGTH];
static size_t length;
static uint16_t mask;

static void nothing(void) {}

static void read_table(void) { cuorfelt_read(table, length); }

/* A copy, so that the others get the table as it was. */
static void normalise(void)
{
    static uint8_t copy[CUORFELT_LONGEST_TABLE];
    memcpy(copy, table, length);
    cuorfelt_normalise(copy, length);
}

/* A chain of as many callbacks as the table has. */
static void write_table(void)
{
    static cuorfelt_callback chain[CUORFELT_PLACES];
    static uint8_t buffer[CUORFELT_LONGEST_TABLE];
    uint16_t n = table[1] > CUORFELT_PLACES ? CUORFELT_PLACES : table[1];
    for (uint16_t i = 0; i < n; i++)
        chain[i] = (cuorfelt_callback){CUORFELT_CLIENT, i + 1 < n ? (uint16_t)(i + 2) : 0, 1, i ? 0 : 10, 0, i ? 0 : 10, {1}};
    cuorfelt_write(1, n, 1, 1, 0, 0, &chain[0].kind, (size_t)CUORFELT_RECORD_NUMBERS * n, buffer, sizeof buffer);
}

static void analyse(void)
{
    static uint16_t row[CUORFELT_PLACES];
    cuorfelt_analyse(table, length, row, CUORFELT_PLACES);
}

static void start(void) { cuorfelt_start(table, length, state, sizeof state); }

static void tick(void) { cuorfelt_tick(state, sizeof state, mask, 1, 1); }

/* The bytes of the painted stack that a call wrote. */
static size_t depth(void (*call)(void))
{
    size_t kept = 0;
    memset(room, PAINT, sizeof room);
    getcontext(&inside);
    inside.uc_stack.ss_sp = room;
    inside.uc_stack.ss_size = sizeof room;
    inside.uc_link = &outside;
    makecontext(&inside, call, 0);
    swapcontext(&outside, &inside);
    while (kept < sizeof room && room[kept] == PAINT)
        kept++;
    return sizeof room - kept;
}

static size_t most(size_t so_far, void (*call)(void))
{
    size_t used = depth(call) - depth(nothing) + sizeof(void *);
    return used > so_far ? used : so_far;
}

/* The first byte of each record is its kind, the second its next; a head is named by none. */
static uint16_t heads(void)
{
    uint16_t named = 0;
    for (int i = 0; i < table[1]; i++)
        named |= (uint16_t)(1u << table[CUORFELT_HEADER_LENGTH + CUORFELT_RECORD_LENGTH * i + 1] >> 1);
    return (uint16_t)(((1u << table[1]) - 1) & ~(unsigned)named);
}

int main(int words, char **word)
{
    size_t reads = 0, normalises = 0, writes = 0, analyses = 0, starts = 0, ticks = 0;
    for (int w = 1; w < words; w++) {
        FILE *file = fopen(word[w], "rb");
        if (!file)
            return 2;
        length = fread(table, 1, sizeof table, file);
        fclose(file);
        reads = most(reads, read_table);
        normalises = most(normalises, normalise);
        writes = most(writes, write_table);
        analyses = most(analyses, analyse);
        starts = most(starts, start);
        mask = heads();
        for (int t = 0; t < 300; t++)
            ticks = most(ticks, tick);
    }
    printf("read %zu, normalise %zu, write %zu, analyse %zu, start %zu, tick %zu bytes of stack\n", reads, normalises, writes, analyses, starts, ticks);
    return reads > CUORFELT_STACK || normalises > CUORFELT_STACK || writes > CUORFELT_STACK || analyses > CUORFELT_STACK || starts > CUORFELT_STACK ||
           ticks > CUORFELT_STACK;
}
