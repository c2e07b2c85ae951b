/* A buffer that ends where memory that nobody may touch begins: its end. */
#ifndef GUARD_H
#define GUARD_H
#include <stdint.h>
#include <stdlib.h>
#include <sys/mman.h>

#define ROOM (17 << 20) /* more than the largest file and the largest memory */
#define PAGE 65536

static uint8_t *guarded_end(void)
{
    uint8_t *room = mmap(NULL, ROOM + PAGE, PROT_READ | PROT_WRITE, MAP_PRIVATE | MAP_ANONYMOUS, -1, 0);
    if (room == MAP_FAILED || mprotect(room + ROOM, PAGE, PROT_NONE) != 0)
        exit(2);
    return room + ROOM;
}

#endif
