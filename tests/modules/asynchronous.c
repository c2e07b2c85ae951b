/* Linked with asynchronous mode, heap and stack on. */

static long level = 42;
long *level_at = &level;

long read_level(void) { return *level_at; }
