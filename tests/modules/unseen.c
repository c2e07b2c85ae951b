/* Pointers that need no symbol. Linked with Android's own packed table, as clang does for that target, whose tags the
 * loader passes over like any unknown tag: the module is taken, and no word is relocated. */

static int values[4] = {1, 2, 3, 4};
__attribute__((visibility("hidden"))) int *values_at = values;
__attribute__((visibility("hidden"))) int *next(void) { return values_at++; }
