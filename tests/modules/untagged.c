/* Built and linked without memory tags: no memtag entry, no descriptor, and words as any loader writes them. */

static int values[4] = {1, 2, 3, 4};
int *values_end = values + 4;
int shared_value = 5;
int *shared_at = &shared_value;

int value(int i) { return values[i & 3] + shared_value; }
