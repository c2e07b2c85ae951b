/* Pointers that a linker packs: to functions and to data without tags; in every second word, dense, and behind a gap. Beside
 * them pointers that stay in the RELA table: into a tagged global, and to an undefined weak symbol. */

static int forward(int x) { return x + 1; }
static int back(int x) { return x - 1; }

struct Step {
    long kind;
    int (*run)(int);
};
#define FOUR(...) __VA_ARGS__, __VA_ARGS__, __VA_ARGS__, __VA_ARGS__
struct Step steps[128] = {FOUR(FOUR(FOUR({1, forward}, {2, back})))};

__attribute__((no_sanitize("memtag"))) static int limits[4] = {1, 2, 3, 4};
int *limits_last = limits + 3;
int *limits_end = limits + 4; /* the address of the tagged global behind, and so its tag */
int *dense[150] = {FOUR(FOUR(FOUR(limits, limits + 1))), limits + 2};
char space[9000] = {1};
int (*last)(int) = back;

static int level = 2;
int *level_end = &level + 1;
extern int missing __attribute__((weak));
int *absent = &missing;

int run(int i)
{
    int sum = steps[i & 127].run(level++) + *dense[i & 127] + space[i & 63] + last(i);
    return limits_last < limits_end && absent ? sum : -sum;
}
