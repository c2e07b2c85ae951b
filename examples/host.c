/* A C host: loads a module with memory tags and shows what the loader did.
 *
 *     cc -std=c99 -Iinclude examples/host.c target/staticlib/libhagolstan.a -o target/host
 *     target/host MODULE [BIAS [EXCLUDED]]
 *
 * Without BIAS it takes one that fits the module. EXCLUDED is a mask of 16 bits: bit t set keeps tag t from being picked; 0
 * without it. The tags are picked anew, at random, each time. Ends with 0 when the module is taken, 1 when it is refused or
 * has no tags left to pick, 2 when it cannot be read, a word is no such number, or the system gives no random bytes. */
#include <errno.h>
#include <inttypes.h>
#include <stdio.h>
#include <stdlib.h>
#include <sys/random.h>
#include "hagolstan.h"

static uint8_t file[HAGOLSTAN_FILE_LIMIT + 1], memory[HAGOLSTAN_MEMORY_LIMIT], plane[HAGOLSTAN_MEMORY_LIMIT / 16];
static uint64_t addresses[HAGOLSTAN_GLOBAL_LIMIT], sizes[HAGOLSTAN_GLOBAL_LIMIT];
static uint8_t drawn[HAGOLSTAN_GLOBAL_LIMIT], choices[HAGOLSTAN_GLOBAL_LIMIT];

/* What each refusal means, and what its position counts ("": nothing). */
static const struct {
    const char *meaning, *position;
} refusals[] = {
    {"taken", ""},
    {"the file is shorter than 64 bytes or longer than 16,777,216", ""},
    {"this is not a 64-bit little-endian ELF file", "byte"},
    {"this is not a shared object for aarch64 with 1 to 16 program headers inside the file", ""},
    {"a PT_LOAD is empty, out of order, misaligned, or outside the file or the first 16,777,216 addresses", "program header"},
    {"there is no PT_DYNAMIC, a second one, or a bad one", "program header"},
    {"a dynamic entry is not allowed or repeated, or its partner is missing", "dynamic entry"},
    {"a table is not in the file part of one PT_LOAD, or has over 65,536 relocations", "table (0 relocations, 1 descriptors)"},
    {"a global's descriptor is cut short, or its number is too long", "descriptor"},
    {"a global lies outside every PT_LOAD, or there are over 65,536", "descriptor"},
    {"the kind or the symbol of a relocation is not allowed", "relocation"},
    {"the place of a relocation is no multiple of 8, read-only, outside the module or used before", "relocation (RELA entries, then packed words)"},
    {"the lent memory, the tag plane or the bias does not fit the module and its largest align", ""},
    {"a relocated address is below 0 or at least 2^48", "relocation (RELA entries, then packed words)"},
    {"the number of tag choices is not the number of globals, or a choice is bad", "choice, or the number of globals"},
    {"the packed relocations are not in the file part of one PT_LOAD, begin with a bitmap, or make over 65,536 with the others", "packed word"},
    {"a global's descriptor has more bytes than it needs: a padded number, or a second number for a size below 8 granules", "descriptor"},
};

static int refused(uint64_t answer)
{
    unsigned number = HAGOLSTAN_REFUSAL(answer);
    printf("refused %u: %s", number, refusals[number].meaning);
    if (refusals[number].position[0])
        printf("; %s %" PRIu64, refusals[number].position, HAGOLSTAN_POSITION(answer));
    printf("\n");
    return 1;
}

static void show_facts(uint64_t facts)
{
    static const char *const modes[] = {"absent", "synchronous", "asynchronous"}, *const switches[] = {"absent", "off", "on"};
    printf("mode %s, heap %s, stack %s\n", modes[HAGOLSTAN_MODE(facts)], switches[HAGOLSTAN_HEAP(facts)], switches[HAGOLSTAN_STACK(facts)]);
    printf("%u globals, %u words relocated\n", HAGOLSTAN_GLOBALS(facts), HAGOLSTAN_WORDS(facts));
}

/* Each run of one tag in the plane is a global: neighbours have different tags. */
static void show_globals(uint64_t bias, size_t granules)
{
    for (size_t start = 0, end; start < granules; start = end) {
        for (end = start + 1; end < granules && plane[end] == plane[start]; end++)
            ;
        if (plane[start])
            printf("global at 0x%" PRIx64 ": %zu granules, tag %u\n", bias + 16 * start, end - start, plane[start]);
    }
}

static uint64_t number(const uint8_t *bytes, size_t count)
{
    uint64_t value = 0;
    while (count-- > 0)
        value = value << 8 | bytes[count];
    return value;
}

/* The program headers of a file that was examined and taken are inside it, and its PT_LOADs rise. */
static const uint8_t *program_header(uint64_t index)
{
    return index < number(file + 56, 2) ? file + number(file + 32, 8) + 56 * index : NULL;
}

/* What a module asks of its host: the memory up to the end of its last PT_LOAD, in whole granules, and what the bias must
 * be a multiple of: 4,096 and the largest align of a PT_LOAD, powers of two both. */
struct needs {
    size_t length;
    uint64_t unit;
};

static struct needs needs_of_module(void)
{
    struct needs needs = {0, 4096};
    const uint8_t *header;
    for (uint64_t i = 0; (header = program_header(i)); i++) {
        if (number(header, 4) != 1)
            continue;
        needs.length = (size_t)(number(header + 16, 8) + number(header + 40, 8) + 15) / 16 * 16;
        if (number(header + 48, 8) > needs.unit)
            needs.unit = number(header + 48, 8);
    }
    return needs;
}

/* The bytes of the file that are loaded at an address; NULL where there are none. */
static const uint8_t *at_address(uint64_t address)
{
    const uint8_t *header;
    for (uint64_t i = 0; (header = program_header(i)); i++) {
        uint64_t start = number(header + 16, 8);
        if (number(header, 4) == 1 && start <= address && address - start < number(header + 32, 8))
            return file + number(header + 8, 8) + (address - start);
    }
    return NULL;
}

/* The value of a dynamic entry, 0 where it is absent. A file that was taken has one PT_DYNAMIC, with a DT_NULL in it. */
static uint64_t dynamic_value(uint64_t tag)
{
    uint64_t i = 0;
    while (number(program_header(i), 4) != 2)
        i++;
    const uint8_t *entry = at_address(number(program_header(i) + 16, 8));
    while (number(entry, 8) != 0 && number(entry, 8) != tag)
        entry += 16;
    return number(entry, 8) ? number(entry + 8, 8) : 0;
}

/* Lists the globals of the descriptor table: their addresses in the module and their bytes. A table of no bytes may be
 * anywhere; any other that was taken is in the file, has no bad descriptor and no more globals than the limit. */
static size_t list_globals(void)
{
    const uint8_t *table = at_address(dynamic_value(0x7000000d)); /* DT_AARCH64_MEMTAG_GLOBALS */
    size_t length = (size_t)dynamic_value(0x7000000f);            /* DT_AARCH64_MEMTAG_GLOBALSSZ */
    uint8_t step[32] = {0}; /* start, granules, next position, end */
    size_t count = 0;
    while (hagolstan_step(table, length, number(step + 16, 8), number(step + 24, 8), count, step, sizeof step) == 1) {
        addresses[count] = number(step, 8);
        sizes[count++] = 16 * number(step + 8, 8);
    }
    return count;
}

/* Random bytes from the system, which may give fewer at once than it was asked for. */
static int draw(uint8_t *bytes, size_t count)
{
    while (count > 0) {
        ssize_t got = getrandom(bytes, count, 0);
        if (got < 0 && errno != EINTR)
            return 0;
        if (got > 0) {
            bytes += got;
            count -= (size_t)got;
        }
    }
    return 1;
}

/* Shows the words that point into the module. */
static void show_pointers(uint64_t bias, size_t length)
{
    for (size_t place = 0; place < length; place += 8) {
        uint64_t word = number(memory + place, 8), address = word & ((UINT64_C(1) << 56) - 1);
        if (bias <= address && address - bias < length)
            printf("word at 0x%" PRIx64 ": 0x%" PRIx64 " tag %u\n", bias + place, address, (unsigned)(word >> 56));
    }
}

/* A whole number up to a highest, decimal or 0x and hexadecimal. */
static int read_number(const char *word, uint64_t highest, uint64_t *value)
{
    char *end;
    errno = 0;
    *value = strtoull(word, &end, 0);
    return '0' <= *word && *word <= '9' && !*end && !errno && *value <= highest;
}

static int read_file(const char *name, size_t *length)
{
    FILE *in = fopen(name, "rb");
    if (!in) {
        perror(name);
        return 0;
    }
    *length = fread(file, 1, sizeof file, in);
    int failed = ferror(in);
    fclose(in);
    if (failed)
        fprintf(stderr, "%s: cannot be read\n", name);
    return !failed;
}

/* Loads the module with the choices, and shows it. */
static int load(size_t length, const uint64_t *given, size_t globals)
{
    /* 0x40000000, or the next multiple of a larger unit; 0 where that is too high. */
    struct needs needs = needs_of_module();
    uint64_t highest = ((UINT64_C(1) << 48) - needs.length) / needs.unit * needs.unit;
    uint64_t bias = needs.unit <= 0x40000000 ? 0x40000000 : needs.unit <= highest ? needs.unit : 0;
    if (given)
        bias = *given;

    uint64_t answer = hagolstan_load(file, length, bias, memory, needs.length, plane, needs.length / 16, choices, globals);
    if (HAGOLSTAN_REFUSAL(answer)) {
        refused(answer);
        if (HAGOLSTAN_REFUSAL(answer) == 12)
            printf("the bias must be a multiple of 0x%" PRIx64 " and at most 0x%" PRIx64 "\n", needs.unit, highest);
        return 1;
    }
    show_globals(bias, needs.length / 16);
    show_pointers(bias, needs.length);
    return 0;
}

int main(int count, char **words)
{
    uint64_t bias, excluded = 0;
    if (count < 2 || count > 4 || (count > 2 && !read_number(words[2], UINT64_MAX, &bias)) ||
        (count > 3 && !read_number(words[3], UINT16_MAX, &excluded))) {
        fprintf(stderr, "usage: host MODULE [BIAS [EXCLUDED]]\n");
        return 2;
    }
    size_t length;
    if (!read_file(words[1], &length))
        return 2;

    uint64_t answer = hagolstan_examine(file, length);
    if (HAGOLSTAN_REFUSAL(answer))
        return refused(answer);
    show_facts(hagolstan_facts(file, length));

    size_t globals = list_globals();
    if (!draw(drawn, globals)) {
        perror("no random bytes");
        return 2;
    }
    /* The globals of a module that was taken are never refused by themselves. */
    answer = hagolstan_pick_tags(addresses, globals, sizes, globals, drawn, globals, (uint16_t)excluded, choices, globals);
    if (HAGOLSTAN_REFUSAL(answer)) {
        printf("no tags: fewer are left than the globals need\n");
        return 1;
    }
    return load(length, count > 2 ? &bias : NULL, globals);
}
