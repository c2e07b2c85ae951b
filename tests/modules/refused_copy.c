/* The compiler makes this assignment a call of memcpy, which is not in the module. With OWN it is, and the module is taken. */

struct Block {
    char bytes[300];
};
void copy(struct Block *to, const struct Block *from) { *to = *from; }

#ifdef OWN
__attribute__((visibility("hidden"))) void *memcpy(void *restrict to, const void *restrict from, __SIZE_TYPE__ count)
{
    volatile char *t = to; /* volatile: or the compiler makes the loop a call of memcpy */
    const char *f = from;
    while (count--)
        *t++ = *f++;
    return to;
}
#endif
