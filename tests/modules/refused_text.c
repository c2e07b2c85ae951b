/* Compiled without -fPIC and linked with -z notext: a pointer in read-only data. */

static int value = 1;
int *const value_at = &value;
