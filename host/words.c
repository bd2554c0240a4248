/* Prints every number and its words, as satchelram_words has them, to be held against the headings of docs/ANSWERS.md. */
#include "satchelram.h"

#include <stdio.h>

int main(void)
{
    unsigned number;
    for (number = 0; number < 300; number++)
        printf("%u %s\n", number, satchelram_words(number));
    return 0;
}
