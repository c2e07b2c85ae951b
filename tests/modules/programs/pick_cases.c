/* pick_cases < pick.cases: a line a case, in the form of pick.answers (tests/vectors). A read or write past the end of a lent
 * list ends the program, and so does a write before the choices. */
#define _DEFAULT_SOURCE
#include <stdio.h>
#include <stdlib.h>
#include <string.h>
#include "cases.h"
#include "guard.h"
#include "hagolstan.h"

#define BEFORE 64 /* bytes watched before the choices */
#define ABOVE (UINT64_MAX - UINT16_MAX)

/* The call with the mask as a wide number, deliberately: C leaves open what stands above its 16 bits, and the archive must not
 * look there. */
typedef uint64_t wide_call(const uint64_t *, size_t, const uint64_t *, size_t, const uint8_t *, size_t, uint64_t, uint8_t *, size_t);
static wide_call *volatile pick_wide = (wide_call *)(void (*)(void))hagolstan_pick_tags;

/* Lends the choices, with bytes before them that must stay. */
static void lend(uint8_t *choices, size_t length)
{
    memset(choices - BEFORE, 0xa5, BEFORE);
    for (size_t i = 0; i < length; i++)
        choices[i] = (uint8_t)(i * 3 + 7);
}

static void expect(int condition, const char *what)
{
    if (condition)
        return;
    fprintf(stderr, "pick_cases: %s\n", what);
    exit(1);
}

int main(void)
{
    uint64_t *addresses_end = (uint64_t *)(void *)guarded_end(), *sizes_end = (uint64_t *)(void *)guarded_end();
    uint8_t *random_end = guarded_end(), *choices_end = guarded_end(), before[BEFORE];
    uint64_t n, m, k, excluded, length;
    memset(before, 0xa5, BEFORE);
    while (get_list(addresses_end, &n)) {
        if (!get_list(sizes_end, &m) || !get_bytes(random_end, &k) || !get(&excluded, 2) || !get(&length, 4) ||
            length > ROOM - BEFORE)
            return 2;
        /* A list of no length is lent as a null pointer. */
        const uint64_t *addresses = n ? addresses_end - n : NULL, *sizes = m ? sizes_end - m : NULL;
        const uint8_t *random_bytes = k ? random_end - k : NULL;
        uint8_t *choices = choices_end - length, *lent = length ? choices : NULL;
        lend(choices, length);
        uint64_t answer = hagolstan_pick_tags(addresses, n, sizes, m, random_bytes, k, (uint16_t)excluded, lent, length);
        uint32_t sum = crc(choices, length);
        expect(memcmp(choices - BEFORE, before, BEFORE) == 0, "a write before the choices");
        printf("%llu ", (unsigned long long)answer);
        show(choices, length);
        printf("\n");

        lend(choices, length);
        uint64_t again = pick_wide(addresses, n, sizes, m, random_bytes, k, ABOVE | excluded, lent, length);
        expect(again == answer && crc(choices, length) == sum, "the bits above the mask change the answer or the choices");
    }
    return 0;
}
