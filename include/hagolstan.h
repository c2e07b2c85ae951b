/* Hagolstan: a module loader for Arm boards with memory tagging.
 *
 * Every slice is a pointer and a length. The caller owns every buffer; no call keeps a pointer after it
 * returns, allocates, or calls back. Buffers lent to one call must not overlap each other. A pointer of
 * length 0 is not read or written and may be null; a null pointer with another length is an error of the
 * caller. The calls may be made from several threads at once on buffers that are not shared. Examine, the facts and the
 * load need at most 258 KiB of stack: 6 KiB where the places of the relocations rise or lie within 64 KiB, 18 KiB where
 * they lie within 1 MiB. The other calls need less than 1 KiB.
 *
 * The answer of examine and of the load is one 64-bit number:
 *   taken:    globals * 256
 *   refused:  position * 256 + refusal number (1 to 16)
 * so the low byte of an answer is 0 exactly when the call was taken. The answers of the writer of tables and of the
 * picker of tags have the same form, with refusals of their own and the index of a global for the position; where the
 * writer takes its lists, the table's length stands for the globals.
 *
 * The order of the checks is 1 to 7, 15, then 8, 16 and 9, which are one walk over the descriptors, then 10 and 11,
 * one over the relocations, then 12 to 14. At each descriptor 8 comes first (it is cut short, or a number of it is too
 * long), then 16 (fewer bytes say the same: a number has more than one byte and the last is 0, or there is a second
 * number for a size below 8 granules), then 9 (its range). What a position counts:
 *   2          bytes of the file
 *   4, 5       program headers; 5 without a PT_DYNAMIC gives their number
 *   6          dynamic entries; a missing partner gives the first DT_NULL
 *   7          0 the RELA table, 1 the descriptor table
 *   8, 9, 16   descriptors
 *   10         RELA entries, skipped ones too
 *   11, 13     RELA entries, then words of the packed table (DT_RELR): the number of RELA entries plus the word's index
 *   14         choices; a wrong number of them gives the number of globals
 *   15         words of the packed table alone; 0 where it is not backed
 *   others     nothing: 0
 * A file of the largest size has room for some 2,097,000 packed words, and a position may be as high.
 */
#ifndef HAGOLSTAN_H
#define HAGOLSTAN_H

#include <stddef.h>
#include <stdint.h>

#ifdef __cplusplus
extern "C" {
#endif

/* The limits of a module: the bytes of its file, the end of its addresses and so the bytes of its memory, its RELA
 * entries (skipped ones too) and packed places together, its globals. */
#define HAGOLSTAN_FILE_LIMIT 16777216
#define HAGOLSTAN_MEMORY_LIMIT 16777216
#define HAGOLSTAN_RELOCATION_LIMIT 65536
#define HAGOLSTAN_GLOBAL_LIMIT 65536

/* Examines a module file: checks 1 to 11, 15 and 16. Reads the file only. */
uint64_t hagolstan_examine(const uint8_t *file, size_t file_length);

/* The facts of a module file that hagolstan_examine takes, in one number; 0 where it refuses the file.
 *   bit 0           1: the file is taken
 *   bits 2 to 3     mode
 *   bits 4 to 5     heap
 *   bits 6 to 7     stack
 *   bits 8 to 24    number of globals
 *   bits 25 to 41   words relocated: RELA entries not skipped, and packed places
 *   bits 42 to 58   kept for a later count
 * Every other bit, and the kept ones today, are 0. HAGOLSTAN_MODE and the macros after it take the number apart. */
uint64_t hagolstan_facts(const uint8_t *file, size_t file_length);

/* Loads a module: checks 1 to 16, and only then writes.
 *   file      the module, an ELF64 shared object, at most HAGOLSTAN_FILE_LIMIT bytes
 *   bias      the address at which memory begins at run time, a multiple of 4,096 and of the largest align of
 *             any PT_LOAD (0 counts as 1). Only the number is asked: the buffer that is lent may stand
 *             elsewhere
 *   memory    lent memory: offset x stands for the file's address x; a multiple of 16 bytes, at least the end
 *             of the last PT_LOAD, at most HAGOLSTAN_MEMORY_LIMIT
 *   plane     lent tag plane: one byte for each 16 bytes of memory
 *   choices   one tag from 1 to 15 for each global, in the order of the descriptor table, and not that of the one
 *             before where the two abut; hagolstan_pick_tags picks such a list
 * Taken: memory holds segments, zeros and relocated words, plane holds each global's choice and 0 elsewhere;
 * what the buffers held before has no influence. Refused: memory and plane are byte for byte as lent. */
uint64_t hagolstan_load(const uint8_t *file, size_t file_length, uint64_t bias,
                        uint8_t *memory, size_t memory_length,
                        uint8_t *plane, size_t plane_length,
                        const uint8_t *choices, size_t choices_length);

/* Reads one global descriptor of a table, from a position and the last global's end (both 0 at the start).
 *   0         finished: the position is the table's end; words stay as lent
 *   1         a global: words hold its start, its granules of 16 bytes, the next position and its end,
 *             eight little-endian bytes each
 *   8, 9, 16  refused: the first word holds the position to report, which is the index handed in
 * Tested in this order: the position is past the table (8); the end handed in is no multiple of 16 or above 2^48 (9);
 * the table's end (0); the descriptor is cut short, or a number of it is too long (8); fewer bytes say the same (16);
 * its global ends above 2^48 (9). Only what fits into words_length bytes is written; 32 hold all. */
uint64_t hagolstan_step(const uint8_t *table, size_t table_length, uint64_t position, uint64_t end,
                        uint64_t index, uint8_t *words, size_t words_length);

/* Writes the descriptor table of a list of globals, in shortest form: what a linker puts into a module, and the only
 * table of these globals that hagolstan_step and the load take.
 *   addresses   where each global starts in the module, ascending
 *   sizes       the bytes of each global, in the same order; both lists are aligned as uint64_t is, and counted in
 *               numbers, not in bytes
 *   buffer      lent for the table; 14 bytes a global are always enough
 * Taken: the answer is the table's length * 256, the table stands at the start of the buffer, and the bytes after it
 * stay as lent. Refused: the answer is index * 256 + refusal number, and the buffer is byte for byte as lent.
 *   1   the lists differ in length; index 0
 * then at each global in turn, with its index:
 *   2   the size is 0
 *   3   the size or the address is no multiple of 16
 *   4   the start is before the end of the global before
 *   5   the end, the exact sum of address and size, is above 2^48
 * and after all of them:
 *   6   the buffer is too small; index 0
 * The number of globals has no limit here; a module may have HAGOLSTAN_GLOBAL_LIMIT. */
uint64_t hagolstan_write_table(const uint64_t *addresses, size_t addresses_length,
                               const uint64_t *sizes, size_t sizes_length,
                               uint8_t *buffer, size_t buffer_length);

/* Picks a tag for each global of a list: what the load takes as choices. For a module that lists these globals, its
 * refusal 14 cannot follow.
 *   addresses   where each global starts in the module, ascending
 *   sizes       the bytes of each global, in the same order; both lists as for hagolstan_write_table
 *   random      a byte for each global, fresh from the system for each load: who knows them knows the tags
 *   excluded    the tags not to pick, by the mask of __arm_mte_create_random_tag (source document 002): bit t set
 *               excludes tag t. Bit 0 counts as set always
 *   choices     lent for the tags, a byte for each global
 * Allowed are the tags 1 to 15 that are not excluded. A global abuts the one before where it starts at that one's end.
 * Taken: the answer is the number of globals * 256. Each choice is the first tag, from the random byte modulo 16 up
 * and wrapping at 16, that is allowed and, where the global abuts the one before, is not that one's.
 * Refused: the answer is index * 256 + refusal number, and the choices are byte for byte as lent.
 *   7        addresses, sizes, random bytes and choices are not all equally many; index 0
 * then at each global in turn, with its index:
 *   2 to 5   as hagolstan_write_table refuses it
 * and after all of them:
 *   8        no list of allowed tags has different ones wherever two globals abut; index 0
 * So at least two tags must be allowed where two globals abut, one where none do, and none for an empty list, which is
 * taken whatever the mask. The number of globals has no limit here; a module may have HAGOLSTAN_GLOBAL_LIMIT. */
uint64_t hagolstan_pick_tags(const uint64_t *addresses, size_t addresses_length,
                             const uint64_t *sizes, size_t sizes_length,
                             const uint8_t *random, size_t random_length, uint16_t excluded,
                             uint8_t *choices, size_t choices_length);

/* An answer taken apart. */
#define HAGOLSTAN_REFUSAL(answer) ((unsigned)((answer) & 0xff))      /* 0: taken */
#define HAGOLSTAN_POSITION(answer) ((uint64_t)(answer) >> 8)         /* of a refusal */
#define HAGOLSTAN_GLOBALS_OF(answer) ((uint64_t)(answer) >> 8)       /* of a call that was taken */
#define HAGOLSTAN_TABLE_LENGTH(answer) ((uint64_t)(answer) >> 8)     /* of a table that was written */

/* The facts taken apart. */
#define HAGOLSTAN_MODE(facts) ((unsigned)((facts) >> 2 & 3))         /* 0 absent, 1 synchronous, 2 asynchronous */
#define HAGOLSTAN_HEAP(facts) ((unsigned)((facts) >> 4 & 3))         /* 0 absent, 1 off, 2 on */
#define HAGOLSTAN_STACK(facts) ((unsigned)((facts) >> 6 & 3))        /* 0 absent, 1 off, 2 on */
#define HAGOLSTAN_GLOBALS(facts) ((unsigned)((facts) >> 8 & 0x1ffff))
#define HAGOLSTAN_WORDS(facts) ((unsigned)((facts) >> 25 & 0x1ffff)) /* words relocated */

#ifdef __cplusplus
}
#endif

#endif
