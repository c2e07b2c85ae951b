/* write_file FILE OFFSET LENGTH BUFFER-LENGTH: reads the descriptor table of so many bytes in a file to its end, and writes
 * what was read again. Prints the answer of the write, the number of globals, and the buffer in hex, or "-" where it has no
 * bytes. Before the write every byte of the buffer is a5. A read or write past the end of what is lent ends the program. */
#define _DEFAULT_SOURCE
#include <stdio.h>
#include <stdlib.h>
#include <string.h>
#include "guard.h"
#include "hagolstan.h"

static uint64_t word(const uint8_t *bytes)
{
    uint64_t value = 0;
    for (int i = 8; i-- > 0;)
        value = value << 8 | bytes[i];
    return value;
}

int main(int count, char **words)
{
    if (count != 5)
        return 2;
    FILE *in = fopen(words[1], "rb");
    size_t length = strtoull(words[3], NULL, 0), buffer_length = strtoull(words[4], NULL, 0);
    if (!in || length > ROOM / 8 || buffer_length > ROOM)
        return 2;
    uint8_t *table = guarded_end() - length, *buffer = guarded_end() - buffer_length, *read = guarded_end() - 32;
    if (fseek(in, strtol(words[2], NULL, 0), SEEK_SET) != 0 || fread(table, 1, length, in) != length)
        return 2;
    fclose(in);

    /* A global has a byte at least; the lists are moved to the end of their rooms. */
    uint64_t *addresses = (uint64_t *)(void *)(guarded_end() - ROOM), *sizes = (uint64_t *)(void *)(guarded_end() - ROOM);
    size_t globals = 0;
    for (uint64_t position = 0, end = 0;; globals++) {
        uint64_t step = hagolstan_step(table, length, position, end, globals, read, 32);
        if (step == 0)
            break;
        if (step != 1 || globals == length)
            return 2;
        addresses[globals] = word(read);
        sizes[globals] = 16 * word(read + 8);
        position = word(read + 16);
        end = word(read + 24);
    }
    addresses = memmove(addresses + ROOM / 8 - globals, addresses, 8 * globals);
    sizes = memmove(sizes + ROOM / 8 - globals, sizes, 8 * globals);

    memset(buffer, 0xa5, buffer_length);
    uint64_t answer = hagolstan_write_table(addresses, globals, sizes, globals, buffer, buffer_length);
    printf("%llu %zu ", (unsigned long long)answer, globals);
    for (size_t i = 0; i < buffer_length; i++)
        printf("%02x", buffer[i]);
    printf("%s\n", buffer_length ? "" : "-");
    return 0;
}
