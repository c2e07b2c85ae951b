/* A pointer far before its global: below address 0 when the bias is 0. */

static long table[4] = {7};
long *far_before = table - 0x20000;
