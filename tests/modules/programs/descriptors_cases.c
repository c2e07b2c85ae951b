/* descriptors_cases < descriptors.cases: a line a case, in the form of descriptors.answers (tests/vectors). A read or write past
 * the end of the lent table or words ends the program. */
#define _DEFAULT_SOURCE
#include <inttypes.h>
#include <stdio.h>
#include <stdlib.h>
#include <string.h>
#include "cases.h"
#include "guard.h"
#include "hagolstan.h"

#define WORDS 32

static uint64_t word(const uint8_t *bytes)
{
    uint64_t value = 0;
    for (int i = 8; i-- > 0;)
        value = value << 8 | bytes[i];
    return value;
}

int main(void)
{
    uint8_t *table_end = guarded_end(), *words = guarded_end() - WORDS, lent[WORDS];
    uint64_t length, position, end, index;
    memset(lent, 0xa5, WORDS);
    while (get(&length, 4)) {
        if (length > ROOM || fread(table_end - length, 1, length, stdin) != length || !get(&position, 8) || !get(&end, 8) ||
            !get(&index, 8))
            return 2;
        memcpy(words, lent, WORDS);
        /* A table of no length is lent as a null pointer. */
        uint64_t step = hagolstan_step(length ? table_end - length : NULL, length, position, end, index, words, WORDS);
        if (step == 0 && memcmp(words, lent, WORDS) == 0)
            printf("finished\n");
        else if (step == 1)
            printf("global %" PRIu64 " %" PRIu64 " %" PRIu64 " %" PRIu64 "\n", word(words), word(words + 8), word(words + 16),
                   word(words + 24));
        else
            printf("refused %" PRIu64 " %" PRIu64 "\n", step, word(words));
    }
    return 0;
}
