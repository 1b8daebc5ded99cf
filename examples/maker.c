/* A desk described by name, as a maker's screen would fill it in, and made into the file of its table:
 *
 *     maker TABLE
 *
 * Writes the table of the guide's worked desk to TABLE, and prints its sheet: `window W`, then `INDEX BOUND # NAME` for each callback. No
 * byte is counted here: the library writes the table, and what it writes its reader accepts. Where it refuses the description, or the analyser
 * the table, it prints `refused NUMBER INDEX` and the reason, and no file is written.
 * Ends with 0; with 1 for a refusal; with 2 where the file or the output cannot be written. */
#include "cuorfelt.h"
#include "cuorfelt_text.h"

#include <stdio.h>

enum { BEAT = 1, CHASE, KEY, CAPTION, SHOW, LINK, LAMP, CALLBACKS = LAMP };

/* Ticks of 1 ms. A follower has no arrivals of its own. */
static const cuorfelt_callback desk[CALLBACKS] = {
    [BEAT - 1] = {.kind = CUORFELT_TIMER, .next = CHASE, .used = 1, .period = 40, .jitter = 2, .distance = 38, .entries = {2}},
    [CHASE - 1] = {.kind = CUORFELT_SUBSCRIPTION, .used = 1, .entries = {3}},
    [KEY - 1] = {.kind = CUORFELT_SUBSCRIPTION, .next = CAPTION, .used = 1, .period = 200, .jitter = 150, .distance = 50, .entries = {1}},
    [CAPTION - 1] = {.kind = CUORFELT_SERVICE, .next = SHOW, .used = 2, .entries = {12, 18}},
    [SHOW - 1] = {.kind = CUORFELT_CLIENT, .used = 1, .entries = {2}},
    [LINK - 1] = {.kind = CUORFELT_CLIENT, .next = LAMP, .used = 1, .period = 100, .jitter = 90, .distance = 10, .entries = {2}},
    [LAMP - 1] = {.kind = CUORFELT_SUBSCRIPTION, .used = 1, .entries = {1}},
};

/* The thread gets 6 ticks in every 10, and is never late; it must have caught up within 1,000. */
static cuorfelt_written write_desk(uint8_t *buffer, size_t length)
{
    return cuorfelt_write(CUORFELT_EDITION_ONE, CALLBACKS, 6, 10, 1000, 0, &desk[0].kind, CUORFELT_RECORD_NUMBERS * CALLBACKS, buffer, length);
}

/* The name of a callback that has one. */
static const char *name_of(unsigned index)
{
    static const char *const names[CALLBACKS + 1] = {"", "beat", "chase", "key", "caption", "show", "link", "lamp"};
    return index <= CALLBACKS && names[index] ? names[index] : "";
}

static int refused(unsigned number, unsigned index)
{
    cuorfelt_words words = cuorfelt_text(number, index);
    printf("refused %u %u # %s%s%s; %s\n", number, index, name_of(index), index ? ": " : "", words.wrong, words.change);
    return 1;
}

static int failed(const char *name)
{
    fprintf(stderr, "maker: %s: cannot be written\n", name);
    return 2;
}

/* Whether all bytes reached the file. */
static int stored(const char *name, const uint8_t *bytes, size_t length)
{
    FILE *file = fopen(name, "wb");
    if (!file)
        return 0;
    size_t wrote = fwrite(bytes, 1, length, file);
    return (fclose(file) == 0) & (wrote == length);
}

int main(int words, char **word)
{
    uint8_t table[CUORFELT_LONGEST_TABLE];
    uint16_t row[CUORFELT_PLACES];
    if (words != 2) {
        fprintf(stderr, "usage: maker TABLE\n");
        return 2;
    }
    cuorfelt_written written = write_desk(table, sizeof table);
    if (written.number)
        return refused(written.number, written.index);
    cuorfelt_refusal read = cuorfelt_read(table, written.length);
    if (read.number)
        return refused(read.number, read.index);
    cuorfelt_sheet sheet = cuorfelt_analyse(table, written.length, row, CUORFELT_PLACES);
    if (sheet.number)
        return refused(sheet.number, sheet.index);
    if (!stored(word[1], table, written.length))
        return failed(word[1]);
    printf("window %d\n", sheet.window);
    for (unsigned index = 1; index <= CALLBACKS; index++)
        printf("%u %d # %s\n", index, row[index - 1], name_of(index));
    return fflush(stdout) ? failed("standard output") : 0;
}
