/* A pointer at an address that is a multiple of 2 and not of 8: the linker packs it as an even word. */

static int value = 1;
long before = 1;
struct __attribute__((packed)) Line {
    short kind;
    int *at;
} __attribute__((aligned(8))) line = {1, &value};
