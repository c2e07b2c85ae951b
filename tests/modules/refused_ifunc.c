/* A function that is chosen at load time. */

int wide;
static int small(void) { return 1; }
static int large(void) { return 2; }
static int (*choose(void))(void) { return wide ? large : small; }
static int width(void) __attribute__((ifunc("choose")));
int (*width_at)(void) = width;
int measure(void) { return width_at() + width(); }
