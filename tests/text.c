/* The words of cuorfelt_text.h, a line for each refusal: NUMBER|WRONG|CHANGE. Those of a record stand in a line of their own where they differ. */
#include "cuorfelt_text.h"

#include <stdio.h>

static void print_words(unsigned number, cuorfelt_words words)
{
    if (*words.wrong)
        printf("%u|%s|%s\n", number, words.wrong, words.change);
}

int main(void)
{
    for (unsigned number = 0; number <= UINT8_MAX; number++) {
        cuorfelt_words words = cuorfelt_text(number, 0), of_record = cuorfelt_text(number, 1);
        print_words(number, words);
        if (of_record.wrong != words.wrong)
            print_words(number, of_record);
    }
    return 0;
}
