/* A table that must lie at a multiple of 128 KiB: its PT_LOAD, not the last, has a larger align than the others. */

extern const int table[64];
__attribute__((aligned(131072))) const int table[64] = {3, 1, 4, 1, 5};
int level = 2;
const int *table_at = table;
const int *table_end = table + 64;
int *level_at = &level;

int entry(int i) { return table[i & 63] + level; }
