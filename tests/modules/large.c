/* Over 1,048,576 bytes in the file and as many more of zeros, and 2,000 pointers. */

const char map[5 << 18] = {1};
char space[2 << 20];
char *space_end = space + sizeof space;
static int value = 1;
int *pointers[2000] = {[0 ... 1999] = &value};
