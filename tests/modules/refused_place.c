/* A pointer at an odd address. */

static int value = 1;
struct __attribute__((packed)) Line {
    char kind;
    int *at;
} line = {1, &value};
