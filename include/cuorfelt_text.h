/* The refusals of cuorfelt.h in words for an operator, for C99 and C++. The words are those of GUIDE.md's table of refusals. */
#ifndef CUORFELT_TEXT_H
#define CUORFELT_TEXT_H

#include "cuorfelt.h"

/* What is wrong, and what to change. */
typedef struct {
    const char *wrong;
    const char *change;
} cuorfelt_words;

static inline cuorfelt_words cuorfelt_words_of(const char *wrong, const char *change)
{
    cuorfelt_words words;
    words.wrong = wrong;
    words.change = change;
    return words;
}

/* The words for the number and index of a refusal; both empty where nothing is refused, or the number is none of a refusal. "It" is the
 * callback that the index names. */
static inline cuorfelt_words cuorfelt_text(unsigned number, unsigned index)
{
    switch (number) {
    case CUORFELT_SHORT_ROW:
        return cuorfelt_words_of("the row has fewer than sixteen places", "lend sixteen, also for fewer callbacks");
    case CUORFELT_SHORT_HEADER:
        return cuorfelt_words_of("the table has fewer than 16 bytes", "write the whole header; look whether the file was cut");
    case CUORFELT_UNKNOWN_EDITION:
        return cuorfelt_words_of("the edition is not 1 or 2",
                                 "give the desk's edition, 1 or 2; of a file, look whether it is a table, or one for a later version");
    case CUORFELT_WRONG_COUNT:
        return cuorfelt_words_of("n is not 1 to 16", "declare one callback at least; beyond sixteen, join some or give them to another thread");
    case CUORFELT_WRONG_LENGTH:
        return cuorfelt_words_of("the length is not 16 + 32 n", "make byte 1 the number of records; cut what follows them");
    case CUORFELT_SPARE_NOT_ZERO:
        if (index == 0)
            return cuorfelt_words_of("a byte of 10 to 15 is not zero", "write zeros");
        return cuorfelt_words_of("an entry beyond m is not zero, or, in bytes, one of 3, 10, 11 or 28 to 31 of its record",
                                 "raise m if the entry is meant; otherwise write zeros");
    case CUORFELT_WRONG_SUPPLY:
        return cuorfelt_words_of("Q is zero or above P, or P is above 60,000", "give Q and P in ticks; choose a longer tick");
    case CUORFELT_WRONG_DELAY:
        return cuorfelt_words_of("Z is above 60,000", "give Z in ticks, 0 where no tick comes after the end of its period; choose a longer tick");
    case CUORFELT_WRONG_HORIZON:
        return cuorfelt_words_of("H is above 60,000", "write 60,000 or less, or 0");
    case CUORFELT_WRONG_KIND:
        return cuorfelt_words_of("its kind is not 1 to 4", "give it one of the four; of a list, look whether it has fourteen numbers for each callback, and n callbacks");
    case CUORFELT_WRONG_NEXT:
        return cuorfelt_words_of("its next is above n", "name a callback that is there, or 0");
    case CUORFELT_WRONG_ENTRIES:
        return cuorfelt_words_of("its m is not 1 to 8, or one of its entries is zero, above 60,000 or not above the one before",
                                 "give as many entries as m says, rising; where two instances cost no more than one, write one tick more "
                                 "or leave the entry out");
    case CUORFELT_ABOVE_SUM:
        return cuorfelt_words_of("one of its entries is above the sum of two whose numbers of instances add up to its own",
                                 "so many instances never cost that much: if it was measured, an earlier entry is too small, so measure that anew; "
                                 "otherwise write the least such sum, and look at the entries behind it again; a table made before version 2.1 "
                                 "goes once through normalise");
    case CUORFELT_NAMED_TWICE:
        return cuorfelt_words_of("two records name it as next", "look which callbacks have it as next, and give each its own follower");
    case CUORFELT_TIMER_NAMED:
        return cuorfelt_words_of("a record names it as next, and it is a timer", "let the chain end before it, or make it a subscription");
    case CUORFELT_LOOP:
        return cuorfelt_words_of("next leads from it back to it", "end the chain somewhere");
    case CUORFELT_WRONG_ARRIVALS:
        return cuorfelt_words_of("no record names it, so it is a head, and T is zero, T or J is above 60,000, or d is not 1 to T; or a record "
                                 "names it, so it is a follower, and T, J or d is not zero",
                                 "if it was meant to be the other, look which callbacks have it as next; else declare a head's arrivals, with a "
                                 "longer tick if they do not fit, or write zeros for a follower");
    case CUORFELT_SHORT_BUFFER:
        return cuorfelt_words_of("the buffer is shorter than the table", "lend 16 + 32 n bytes; 528 do for any table");
    case CUORFELT_NO_WINDOW:
        return cuorfelt_words_of("there is no window up to H",
                                 "the desk asks for more than it is given: raise Q, lower Z or costs, raise T or d, lower J; if it is only behind "
                                 "for long, raise H");
    case CUORFELT_TOO_MANY:
        return cuorfelt_words_of("more than 255 of its events may come within the window", "raise d or lower J; or shorten the window as for 15");
    case CUORFELT_FAULTY_STATE:
        return cuorfelt_words_of("the lent bytes have another length or hold no state",
                                 "lend 640 bytes; start first, and look whether the start was refused; let nobody else write them");
    case CUORFELT_TICKS_SPENT:
        return cuorfelt_words_of("1,000,000,000 ticks were taken", "start again where nothing waits");
    case CUORFELT_WRONG_COST:
        return cuorfelt_words_of("the cost is not 1 to 60,000", "offer a cost in every tick, also where nothing starts");
    case CUORFELT_NOT_A_HEAD:
        return cuorfelt_words_of("the mask has its bit, and it is a follower or no callback", "put heads in the mask, bit i - 1 for callback i");
    case CUORFELT_QUEUE_FULL:
        return cuorfelt_words_of("it has 255 instances waiting and would get one more",
                                 "the arrivals, costs or supply are not as declared: see what the history did");
    default:
        return cuorfelt_words_of("", "");
    }
}

#endif
