/* write_cases < write.cases: a line a case, in the form of write.answers (tests/vectors). A read or write past the end of a
 * lent list or buffer ends the program. */
#define _DEFAULT_SOURCE
#include <stdio.h>
#include <stdlib.h>
#include "cases.h"
#include "guard.h"
#include "hagolstan.h"

int main(void)
{
    uint64_t *addresses_end = (uint64_t *)(void *)guarded_end(), *sizes_end = (uint64_t *)(void *)guarded_end();
    uint8_t *buffer_end = guarded_end();
    uint64_t addresses, sizes, length;
    while (get_list(addresses_end, &addresses)) {
        if (!get_list(sizes_end, &sizes) || !get(&length, 4) || length > ROOM)
            return 2;
        uint8_t *buffer = buffer_end - length;
        for (size_t i = 0; i < length; i++)
            buffer[i] = (uint8_t)(i * 13 + 5);
        /* A list or buffer of no length is lent as a null pointer. */
        uint64_t answer = hagolstan_write_table(addresses ? addresses_end - addresses : NULL, addresses,
                                                sizes ? sizes_end - sizes : NULL, sizes, length ? buffer : NULL, length);
        printf("%llu ", (unsigned long long)answer);
        show(buffer, length);
        printf("\n");
    }
    return 0;
}
