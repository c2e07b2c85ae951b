/* A file over 16,777,216 bytes. */

const char map[16 << 20] = {1};
