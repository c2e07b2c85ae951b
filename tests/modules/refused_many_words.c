/* 65,537 pointers: one more than a relocation table may have. */

static int value = 1;
int *pointers[65537] = {[0 ... 65536] = &value};
