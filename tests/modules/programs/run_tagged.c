/* run_tagged MODULE RECORD READING LOG_END AGE_AT TABLE BYTES: loads the nine-hour module, with tags picked at random, into memory
 * that the processor checks by tags, and runs it (aarch64 with MTE). The words are the addresses in the module of two functions and
 * two pointers, where the descriptor table stands in the file, and its bytes. */
#define _GNU_SOURCE
#include <setjmp.h>
#include <signal.h>
#include <stdio.h>
#include <stdlib.h>
#include <sys/mman.h>
#include <sys/prctl.h>
#include <sys/random.h>
#include "hagolstan.h"

#define LENGTH 0x80000
#define ALIGN 0x10000    /* the largest align of a module that is run */
#define MTE 0x20         /* PROT_MTE */
#define TAG_FAULT 9      /* SEGV_MTESERR */
#define TAGGING 55       /* PR_SET_TAGGED_ADDR_CTRL */
#define MOST 256         /* globals; getrandom gives so many bytes at once */
#define SYNCHRONOUS (1 | 1 << 1 | 0xfffeul << 3)

static uint8_t file[1 << 24], plane[LENGTH / 16], choices[MOST];
static sigjmp_buf back;
static volatile int fault;

static void on_fault(int number, siginfo_t *what, void *context)
{
    (void)number, (void)context;
    fault = what->si_code;
    siglongjmp(back, 1);
}

/* Writes one byte; says whether the processor refused it for its tag. */
static int refused(uintptr_t address)
{
    fault = 0;
    if (sigsetjmp(back, 1) == 0)
        *(volatile char *)address = 0;
    return fault == TAG_FAULT;
}

static int fail(const char *what)
{
    printf("FAILED: %s\n", what);
    return 1;
}

/* Picks tags for the globals of a descriptor table; says how many, 0 where it cannot. */
static size_t pick(const uint8_t *table, size_t length)
{
    uint64_t addresses[MOST], sizes[MOST], step[4] = {0}; /* start, granules, next position, end */
    uint8_t drawn[MOST];
    size_t globals = 0;
    while (globals < MOST && hagolstan_step(table, length, step[2], step[3], globals, (uint8_t *)step, sizeof step) == 1) {
        addresses[globals] = step[0];
        sizes[globals++] = 16 * step[1];
    }
    if (getrandom(drawn, globals, 0) != (ssize_t)globals)
        return 0;
    uint64_t answer = hagolstan_pick_tags(addresses, globals, sizes, globals, drawn, globals, 0, choices, globals);
    return HAGOLSTAN_REFUSAL(answer) ? 0 : globals;
}

int main(int count, char **words)
{
    uintptr_t at[8];
    if (count != 8)
        return 2;
    for (int i = 2; i < 8; i++)
        at[i] = strtoull(words[i], NULL, 16);
    FILE *in = fopen(words[1], "rb");
    if (!in)
        return 2;
    size_t length = fread(file, 1, sizeof file, in);
    fclose(in);
    if (at[6] > length || at[7] > length - at[6])
        return 2;

    uint8_t *room = mmap(NULL, LENGTH + ALIGN, PROT_READ | PROT_WRITE | PROT_EXEC | MTE, MAP_PRIVATE | MAP_ANONYMOUS, -1, 0);
    if (room == MAP_FAILED || prctl(TAGGING, SYNCHRONOUS, 0, 0, 0) != 0) {
        printf("no memory tagging here\n");
        return 77;
    }
    uint8_t *memory = room + (ALIGN - (uintptr_t)room % ALIGN) % ALIGN;
    uintptr_t bias = (uintptr_t)memory;
    size_t globals = pick(file + at[6], at[7]);
    if (HAGOLSTAN_REFUSAL(hagolstan_load(file, length, bias, memory, LENGTH, plane, sizeof plane, choices, globals)))
        return fail("the module is refused");
    struct sigaction action = {.sa_sigaction = on_fault, .sa_flags = SA_SIGINFO};
    sigaction(SIGSEGV, &action, NULL);

    /* The end of the log and the counter, read before their granules have tags. */
    uintptr_t log_end = *(uintptr_t *)(bias + at[4]), age = *(uintptr_t *)(bias + at[5]);
    for (size_t i = 0; i < sizeof plane; i++)
        if (plane[i])
            __asm__ volatile("stg %0, [%0]" : : "r"((bias + 16 * i) | (uintptr_t)plane[i] << 56) : "memory");
    __builtin___clear_cache((char *)memory, (char *)memory + LENGTH);

    void (*record)(unsigned short) = (void (*)(unsigned short))(bias + at[2]);
    int (*reading)(void) = (int (*)(void))(bias + at[3]);
    if (sigsetjmp(back, 1) != 0)
        return fail("the module's own code met a fault");
    for (int i = 0; i < 100; i++)
        record(7);
    if (reading() != 21)
        return fail("the reading");
    if (log_end << 8 != age << 8 || log_end == age)
        return fail("the log's end and the counter");
    if (!refused(log_end))
        return fail("a write past the log was not refused");
    if (refused(log_end - 1) || refused(age))
        return fail("a write inside the log, or to the counter, was refused");
    printf("the module ran under memory tagging\n");
    return 0;
}
