/* What the programs over tests/vectors share: numbers and lists of the records, and how the answers show a buffer. */
#ifndef CASES_H
#define CASES_H
#include <stdint.h>
#include <stdio.h>
#include "guard.h"

/* A little-endian number from standard input. */
static int get(uint64_t *value, int bytes)
{
    *value = 0;
    for (int i = 0; i < bytes; i++) {
        int c = getchar();
        if (c == EOF)
            return 0;
        *value |= (uint64_t)c << (8 * i);
    }
    return 1;
}

/* Reads a count and as many numbers, which end at end. */
static inline int get_list(uint64_t *end, uint64_t *count)
{
    if (!get(count, 4) || *count > ROOM / 8)
        return 0;
    for (uint64_t *at = end - *count; at < end; at++)
        if (!get(at, 8))
            return 0;
    return 1;
}

/* Reads a length and as many bytes, which end at end. */
static inline int get_bytes(uint8_t *end, uint64_t *length)
{
    return get(length, 4) && *length <= ROOM && fread(end - *length, 1, *length, stdin) == *length;
}

/* CRC-32 as zlib computes it. */
static inline uint32_t crc(const uint8_t *bytes, size_t length)
{
    static uint32_t table[256];
    for (uint32_t i = 0; i < 256 && !table[255]; i++) {
        uint32_t c = i;
        for (int bit = 0; bit < 8; bit++)
            c = c >> 1 ^ (c & 1 ? 0xedb88320 : 0);
        table[i] = c;
    }
    uint32_t c = 0xffffffff;
    for (size_t i = 0; i < length; i++)
        c = c >> 8 ^ table[(c ^ bytes[i]) & 0xff];
    return ~c;
}

/* A buffer in hex, - where it has no bytes, or # and its sum where it has over 64. */
static inline void show(const uint8_t *buffer, size_t length)
{
    if (length > 64)
        printf("#%08x", (unsigned)crc(buffer, length));
    else if (length == 0)
        printf("-");
    else
        for (size_t i = 0; i < length; i++)
            printf("%02x", buffer[i]);
}

#endif
