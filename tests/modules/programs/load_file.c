/* load_file FILE BIAS MEMORY-LENGTH PLANE-LENGTH CHOICES OUT: loads a module; CHOICES is two hex digits a global, or "-".
 * Prints the answers of load, examine and facts, and writes OUT.memory and OUT.plane. Before the call every byte of
 * memory is a5 and of the plane 5a. A read or write past the end of a lent buffer ends the program. */
#define _DEFAULT_SOURCE
#include <stdio.h>
#include <stdlib.h>
#include <string.h>
#include "guard.h"
#include "hagolstan.h"

static int write_out(const char *name, const char *end, const uint8_t *bytes, size_t length)
{
    char path[4096];
    snprintf(path, sizeof path, "%s.%s", name, end);
    FILE *out = fopen(path, "wb");
    return out && fwrite(bytes, 1, length, out) == length && fclose(out) == 0;
}

int main(int count, char **words)
{
    if (count != 7)
        return 2;
    FILE *in = fopen(words[1], "rb");
    if (!in)
        return 2;
    uint8_t *file = guarded_end() - ROOM;
    size_t file_length = fread(file, 1, ROOM, in);
    fclose(in);
    file = memmove(file + ROOM - file_length, file, file_length);
    uint64_t bias = strtoull(words[2], NULL, 0);
    size_t memory_length = strtoull(words[3], NULL, 0), plane_length = strtoull(words[4], NULL, 0);
    size_t choices_length = words[5][0] == '-' ? 0 : strlen(words[5]) / 2;
    if (memory_length > ROOM || plane_length > ROOM || choices_length > ROOM)
        return 2;
    uint8_t *memory = guarded_end() - memory_length, *plane = guarded_end() - plane_length;
    uint8_t *choices = guarded_end() - choices_length;
    for (size_t i = 0; i < choices_length; i++) {
        char two[3] = {words[5][2 * i], words[5][2 * i + 1], 0};
        choices[i] = (uint8_t)strtoul(two, NULL, 16);
    }
    memset(memory, 0xa5, memory_length);
    memset(plane, 0x5a, plane_length);
    uint64_t answer = hagolstan_load(file, file_length, bias, memory, memory_length, plane, plane_length, choices, choices_length);
    printf("%llu %llu %llu\n", (unsigned long long)answer, (unsigned long long)hagolstan_examine(file, file_length),
           (unsigned long long)hagolstan_facts(file, file_length));
    return write_out(words[6], "memory", memory, memory_length) && write_out(words[6], "plane", plane, plane_length) ? 0 : 2;
}
