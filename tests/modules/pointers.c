/* Pointers to the start, middle and end of tagged globals, an undefined weak symbol, constant data and bss. */

static int readings[8] = {1, 2, 3, 4, 5, 6, 7, 8}; /* 2 granules */
static char text[16] = "battery";                  /* 1 granule */
long table[40] = {7};                              /* 20 granules: its size is a second number */
static char scratch[48];                           /* bss */
long total;                                        /* bss, of a symbol that other modules see */

extern int missing __attribute__((weak));

int *start = readings;
int *middle = readings + 5;
int *end = readings + 8;
char *text_end = text + sizeof text;
char *scratch_middle = scratch + 17;
char *scratch_end = scratch + sizeof scratch;
long *table_start = table;
long *table_inside = &table[39];
long *table_end = &table[40];
long *before = (long *)((char *)table - 8);
int *absent = &missing;
int *absent_far = &missing + 4;

/* Written by the loader alone (relro). */
int *const ends[3] = {readings + 8, readings + 4, readings};

int sum(void)
{
    int s = 0;
    for (int *p = start; p != end; p++)
        s += *p;
    total += s;
    scratch[0] = (char)s;
    text[0]++;
    return s + (&missing ? missing : 0) + *ends[1];
}
