/* load_cases < load.cases: a line a case, in the form of load.answers (tests/vectors). load_cases packed < large.cases: the
 * same, where file and choices are packed. A read or write past the end of a lent buffer ends the program. */
#define _DEFAULT_SOURCE
#include <stdio.h>
#include <stdlib.h>
#include <string.h>
#include "cases.h"
#include "guard.h"
#include "hagolstan.h"

/* Reads a length and pieces, which are put over as many zeros, which end at end. A piece is a unit put down count times, one
 * copy after the other; in copy k each eight bytes of the unit, as a number, have k times their step added. */
static int get_pieces(uint8_t *end, uint64_t *length)
{
    static uint8_t unit[1 << 16];
    static uint64_t steps[sizeof unit / 8];
    uint64_t pieces, start, bytes, count;
    if (!get(length, 4) || *length > ROOM || !get(&pieces, 4))
        return 0;
    memset(end - *length, 0, *length);
    while (pieces--) {
        if (!get(&start, 4) || !get(&bytes, 4) || !get(&count, 4) || bytes > sizeof unit || start + bytes * count > *length ||
            fread(unit, 1, bytes, stdin) != bytes)
            return 0;
        for (size_t i = 0; i < bytes / 8; i++)
            if (!get(&steps[i], 8))
                return 0;
        for (uint64_t k = 0; k < count; k++) {
            uint8_t *copy = end - *length + start + k * bytes;
            memcpy(copy, unit, bytes);
            for (size_t i = 0; i < bytes / 8; i++) {
                uint64_t word = k * steps[i];
                for (int j = 0; j < 8; j++)
                    word += (uint64_t)unit[8 * i + j] << (8 * j);
                for (int j = 0; j < 8; j++)
                    copy[8 * i + j] = (uint8_t)(word >> (8 * j));
            }
        }
    }
    return 1;
}

int main(int count, char **words)
{
    int packed = count == 2 && strcmp(words[1], "packed") == 0;
    int (*get_part)(uint8_t *, uint64_t *) = packed ? get_pieces : get_bytes;
    static const char *const modes[] = {"absent", "sync", "async"}, *const switches[] = {"absent", "off", "on"};
    uint8_t *file_end = guarded_end(), *memory_end = guarded_end(), *plane_end = guarded_end(), *choices_end = guarded_end();
    uint64_t file_length, bias, memory_length, plane_length, choices_length, last;
    while (get_part(file_end, &file_length)) {
        if (!get(&bias, 8) || !get(&memory_length, 4) || !get(&plane_length, 4) || memory_length > ROOM ||
            plane_length > ROOM || !get_part(choices_end, &choices_length) || !get(&last, 4))
            return 2;
        uint8_t *file = file_end - file_length, *memory = memory_end - memory_length;
        uint8_t *plane = plane_end - plane_length, *choices = choices_end - choices_length;
        for (size_t i = 0; i < memory_length; i++)
            memory[i] = (uint8_t)(i * 7 + 3);
        for (size_t i = 0; i < plane_length; i++)
            plane[i] = (uint8_t)(i * 5 + 1);
        uint64_t load = hagolstan_load(file, file_length, bias, memory, memory_length, plane, plane_length, choices, choices_length);
        uint64_t examined = hagolstan_examine(file, file_length), facts = hagolstan_facts(file, file_length);
        printf("%llu 0 %08x %08x 00000000 %llu", (unsigned long long)load, (unsigned)crc(memory, memory_length),
               (unsigned)crc(plane, plane_length), (unsigned long long)examined);
        if (HAGOLSTAN_REFUSAL(examined))
            printf(" - - - - - -\n");
        else
            printf(" %s %s %s %u %u 0\n", modes[HAGOLSTAN_MODE(facts)], switches[HAGOLSTAN_HEAP(facts)],
                   switches[HAGOLSTAN_STACK(facts)], HAGOLSTAN_GLOBALS(facts), HAGOLSTAN_WORDS(facts));
    }
    return 0;
}
