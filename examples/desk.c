/* A desk in one loop, for a recorded history. Reads a callback table, prints its timing sheet, and runs the history:
 *
 *     desk [-n NAMES] TABLE [HISTORY]
 *
 * TABLE holds the table's bytes, NAMES a name for each callback, a line each. HISTORY is text: the table's bytes in hex on the first
 * line, then one tick a line, MASK SUPPLIED COST, in decimal; empty lines and lines that begin with # say nothing.
 * Prints `window W` and a line `INDEX BOUND` for each callback, or `refused NUMBER INDEX`; then `start accepted` or
 * `start refused NUMBER INDEX`, and a line for each tick T: `T ANSWER CALLBACK INSTANCE STARTED POLLED GATHERED FOLDED`,
 * or `T refused NUMBER INDEX`. What stands behind a # is the same in words: names, chains, the edition, the reason of a refusal, the timers whose
 * beat was folded (FOLDED is a mask, bit i - 1 for callback i); and at the end, a line each, how many beats every such timer missed.
 * Ends with 0; with 1 where the table, the start or a tick was refused; with 2 where a file cannot be read or the output not be written. */
#include "cuorfelt.h"
#include "cuorfelt_text.h"

#include <stdio.h>
#include <stdlib.h>
#include <string.h>

enum {
    LONGEST_FILE = 4096, /* of a table: one has 528 bytes at most, and a longer file is the reader's to refuse */
    LONGEST_NAME = 64
};

typedef struct {
    uint8_t *bytes;
    size_t length;
} table;

/* The name of callback i, empty where none is given. */
static char names[CUORFELT_PLACES + 1][LONGEST_NAME];

/* The beats that callback i missed. */
static unsigned long missed[CUORFELT_PLACES + 1];

/* The line that was read last, of names or of a history. */
static char line[2 * LONGEST_FILE + 2];

/* 1 once something was refused. */
static int status;

static void fail(const char *name, const char *what)
{
    fprintf(stderr, "desk: %s: %s\n", name, what);
    exit(2);
}

static void fail_at(const char *name, unsigned long line, const char *what)
{
    fprintf(stderr, "desk: %s: line %lu: %s\n", name, line, what);
    exit(2);
}

static void *lend(const char *name, size_t count, size_t size)
{
    void *room = calloc(count ? count : 1, size);
    if (!room)
        fail(name, "no memory");
    return room;
}

static FILE *opened(const char *name, const char *mode)
{
    FILE *file = fopen(name, mode);
    if (!file)
        fail(name, "cannot be read");
    return file;
}

/* Closes a file that was read to its end. */
static void close_read(const char *name, FILE *file)
{
    if (ferror(file))
        fail(name, "cannot be read");
    fclose(file);
}

static table read_table(const char *name)
{
    static uint8_t buffer[LONGEST_FILE];
    FILE *file = opened(name, "rb");
    table read = {NULL, fread(buffer, 1, sizeof buffer, file)};
    close_read(name, file);
    read.bytes = lend(name, read.length, 1);
    memcpy(read.bytes, buffer, read.length);
    return read;
}

static void read_names(const char *name)
{
    FILE *file = opened(name, "r");
    for (int index = 1; index <= CUORFELT_PLACES && fgets(line, sizeof line, file); index++)
        snprintf(names[index], LONGEST_NAME, "%.*s", (int)strcspn(line, "\r\n"), line);
    close_read(name, file);
}

static void print_name(int index)
{
    if (names[index][0])
        printf("%s", names[index]);
    else
        printf("callback %d", index);
}

/* ` NUMBER INDEX` and the words for them. */
static void print_refusal(cuorfelt_refusal refusal)
{
    cuorfelt_words words = cuorfelt_text(refusal.number, refusal.index);
    printf(" %d %d # ", refusal.number, refusal.index);
    if (refusal.index) {
        print_name(refusal.index);
        printf(": ");
    }
    printf("%s; %s\n", words.wrong, words.change);
    status = 1;
}

/* What each completion of a callback activates, 0 for nothing. */
static int next_of(table of, int index)
{
    return of.bytes[CUORFELT_HEADER_LENGTH + CUORFELT_RECORD_LENGTH * (index - 1) + 1];
}

/* The callback that activates this one, 0 for a head. */
static int before(table of, int index)
{
    int from = of.bytes[1];
    while (from > 0 && next_of(of, from) != index)
        from--;
    return from;
}

/* The names from the head of a callback's chain to the callback. */
static void print_chain(table of, int index)
{
    if (before(of, index)) {
        print_chain(of, before(of, index));
        printf(" > ");
    }
    print_name(index);
}

static void print_bound(table of, int index, uint16_t bound)
{
    printf("%d %d # ", index, bound);
    print_name(index);
    if (next_of(of, index) == 0) {
        printf(", the end of ");
        print_chain(of, index);
    }
    printf("\n");
}

static void print_sheet(const char *name, table of)
{
    uint16_t *row = lend(name, CUORFELT_PLACES, sizeof *row);
    cuorfelt_sheet sheet = cuorfelt_analyse(of.bytes, of.length, row, CUORFELT_PLACES);
    cuorfelt_refusal refusal = {sheet.number, sheet.index};
    if (sheet.number) {
        printf("refused");
        print_refusal(refusal);
    } else {
        printf("window %d\n", sheet.window);
        for (int index = 1; index <= of.bytes[1]; index++)
            print_bound(of, index, row[index - 1]);
    }
    free(row);
}

/* Whether the line that was read last spells the table's bytes. */
static int spells(table of)
{
    size_t digits = strcspn(line, "\r\n");
    if (digits != 2 * of.length)
        return 0;
    for (size_t k = 0; k < of.length; k++) {
        unsigned byte;
        if (sscanf(line + 2 * k, "%2x", &byte) != 1 || byte != of.bytes[k])
            return 0;
    }
    return 1;
}

/* The timers whose beat a tick folded; each is a beat missed. */
static void print_folded(cuorfelt_reply reply)
{
    const char *before = reply.callback ? "; folded: " : "folded: ";
    for (int index = 1; index <= CUORFELT_PLACES; index++) {
        if (!(reply.folded >> (index - 1) & 1))
            continue;
        missed[index]++;
        printf("%s", before);
        print_name(index);
        before = ", ";
    }
}

static void print_reply(unsigned long tick, cuorfelt_reply reply)
{
    static const char *const answers[] = {"refused", "nosupply", "idle", "ran", "finished"};
    cuorfelt_refusal refusal = {reply.number, reply.index};
    printf("%lu %s", tick, answers[reply.answer]);
    if (reply.number) {
        print_refusal(refusal);
        return;
    }
    printf(" %d %lu %d %d %d %d", reply.callback, (unsigned long)reply.instance, reply.started, reply.polled, reply.gathered, reply.folded);
    if (reply.callback || reply.folded)
        printf(" # ");
    if (reply.callback)
        print_name(reply.callback);
    print_folded(reply);
    printf("\n");
}

static void print_missed(void)
{
    for (int index = 1; index <= CUORFELT_PLACES; index++) {
        if (!missed[index])
            continue;
        printf("# beats missed by ");
        print_name(index);
        printf(": %lu\n", missed[index]);
    }
}

/* The desk's loop: each line is what arrived, whether the thread has the processor, and what a start would cost. */
static void run_ticks(const char *name, FILE *file, uint8_t *state, size_t length)
{
    unsigned long number = 1, tick = 0, mask, supplied, cost;
    char rest;
    while (fgets(line, sizeof line, file)) {
        number++;
        if (line[0] == '#' || line[strspn(line, " \t\r\n")] == '\0')
            continue;
        if (sscanf(line, "%lu %lu %lu %c", &mask, &supplied, &cost, &rest) != 3 || mask > UINT16_MAX ||
            supplied > 1 || cost > UINT32_MAX)
            fail_at(name, number, "not a tick");
        print_reply(tick, cuorfelt_tick(state, length, (uint16_t)mask, (uint8_t)supplied, (uint32_t)cost));
        tick++;
    }
}

static void run_history(const char *name, table of)
{
    FILE *file = opened(name, "r");
    int spelt = fgets(line, sizeof line, file) && spells(of);
    if (ferror(file))
        fail(name, "cannot be read");
    if (!spelt)
        fail_at(name, 1, "recorded for another table");
    size_t length = cuorfelt_state_length();
    uint8_t *state = lend(name, length, 1);
    cuorfelt_refusal refusal = cuorfelt_start(of.bytes, of.length, state, length);
    if (refusal.number) {
        printf("start refused");
        print_refusal(refusal);
    } else {
        printf("start accepted # edition %d: timers %s\n", of.bytes[0],
               of.bytes[0] == CUORFELT_EDITION_TWO ? "wait for a polling point" : "overtake");
        run_ticks(name, file, state, length);
        print_missed();
    }
    free(state);
    close_read(name, file);
}

int main(int words, char **word)
{
    int named = words > 2 && strcmp(word[1], "-n") == 0;
    char **file = word + 1 + 2 * named;
    int files = words - 1 - 2 * named;
    if (files < 1 || files > 2) {
        fprintf(stderr, "usage: desk [-n NAMES] TABLE [HISTORY]\n");
        return 2;
    }
    if (named)
        read_names(word[2]);
    table of = read_table(file[0]);
    print_sheet(file[0], of);
    if (files == 2)
        run_history(file[1], of);
    free(of.bytes);
    if (fflush(stdout) || ferror(stdout))
        fail("standard output", "cannot be written");
    return status;
}
