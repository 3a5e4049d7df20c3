/* chezumobari_saved.h: a board as bytes, and back, over chezumobari.h. Header only, C99.
 *
 * All numbers are little-endian, whatever the machine is. The bytes are, in order: the eight letters
 * chezumob; the version of the format, 32 bits, which is 2; how many words, records and tasks, 32 bits
 * each; every word, every record, every place and every entry, number by number as their structs have
 * them, 32 bits each; a checksum of all bytes before it, 64 bits, FNV-1a. The Rust package reads and
 * writes the same.
 *
 * Boards that were saved in version 1 are loaded too. There a place has three numbers: it lacks the last,
 * the lists that the task is on, and each task is on none.
 *
 * A sleeper is saved asleep, and sleeps on. If the board was one that an opening and calls had reached,
 * the loaded one is that board again, and what is promised of it goes on. Bytes that somebody else
 * made, with a checksum that fits, are only checked for soundness.
 */
#ifndef CHEZUMOBARI_SAVED_H
#define CHEZUMOBARI_SAVED_H

#include "chezumobari.h"

#include <string.h>

#ifdef __cplusplus
extern "C" {
#endif

#define CHEZUMOBARI_SAVED_FORMAT 2u
#define CHEZUMOBARI_SAVED_WITHOUT_LISTS 1u /* the version before: it is read, and no longer written */
/* What saving and loading answer beside 0 done and 1 unsound. */
#define CHEZUMOBARI_NOT_A_BOARD 31   /* the bytes do not begin as a saved board does */
#define CHEZUMOBARI_OTHER_FORMAT 32  /* they are of another version of the format, neither 1 nor 2 */
#define CHEZUMOBARI_DAMAGED 33       /* too few or too many, a size out of range, or another checksum */
#define CHEZUMOBARI_OTHER_SIZES 34   /* the tables that are lent are those of a board of other sizes */
#define CHEZUMOBARI_TOO_SHORT 35     /* the bytes that are lent to save to are too few */

enum { CHEZUMOBARI_SAVED_HEAD = 24, CHEZUMOBARI_SAVED_SUM = 8 };

/* How many bytes a board of these sizes is, saved. */
#define CHEZUMOBARI_SAVED_BYTES(words, records, tasks)                                             \
    (CHEZUMOBARI_SAVED_HEAD + CHEZUMOBARI_BYTES(words, records, tasks) + CHEZUMOBARI_SAVED_SUM)

/* How many numbers a place has in a version of the format; 0 if the version is not known. */
static inline size_t chezumobari_saved_place(uint32_t format)
{
    return format == CHEZUMOBARI_SAVED_FORMAT ? 4 : format == CHEZUMOBARI_SAVED_WITHOUT_LISTS ? 3 : 0;
}

static inline uint64_t chezumobari_checksum(const unsigned char *bytes, size_t length)
{
    uint64_t sum = 14695981039346656037u;
    for (size_t i = 0; i < length; i++)
        sum = (sum ^ bytes[i]) * 1099511628211u;
    return sum;
}

/* Numbers to bytes and back. Both answer where the next bytes are. */
static inline unsigned char *chezumobari_put_numbers(unsigned char *bytes, const uint32_t *numbers, size_t count)
{
    for (size_t i = 0; i < count; i++)
        for (int shift = 0; shift < 32; shift += 8)
            *bytes++ = (unsigned char)(numbers[i] >> shift);
    return bytes;
}

static inline const unsigned char *chezumobari_get_numbers(const unsigned char *bytes, uint32_t *numbers, size_t count)
{
    for (size_t i = 0; i < count; i++) {
        numbers[i] = 0;
        for (int shift = 0; shift < 32; shift += 8)
            numbers[i] |= (uint32_t)*bytes++ << shift;
    }
    return bytes;
}

/* Saves a board to bytes that are lent, as many as CHEZUMOBARI_SAVED_BYTES says. Numbers 0, 1, 35. */
static inline uint32_t chezumobari_save(const chezumobari_board *board, unsigned char *bytes, size_t length)
{
    const chezumobari_sizes z = board->sizes;
    const uint32_t head[] = {CHEZUMOBARI_SAVED_FORMAT, (uint32_t)z.words, (uint32_t)z.records, (uint32_t)z.tasks};
    unsigned char *at = bytes + 8;
    uint32_t sum[2];
    uint64_t whole;
    if (chezumobari_look(CHEZUMOBARI_LENT(*board), 0).number) /* any call checks the tables */
        return CHEZUMOBARI_UNSOUND;
    if (length < CHEZUMOBARI_SAVED_BYTES(z.words, z.records, z.tasks))
        return CHEZUMOBARI_TOO_SHORT;
    memcpy(bytes, "chezumob", 8);
    at = chezumobari_put_numbers(at, head, 4);
    at = chezumobari_put_numbers(at, board->words, z.words);
    at = chezumobari_put_numbers(at, board->records, z.records);
    for (size_t i = 0; i < z.tasks; i++) {
        const chezumobari_place *p = &board->places[i];
        const uint32_t row[] = {p->count, p->phase, p->position, p->joins};
        at = chezumobari_put_numbers(at, row, sizeof row / sizeof *row);
    }
    for (size_t i = 0; i < CHEZUMOBARI_ENTRY_ROWS(z.tasks); i++) {
        const chezumobari_entry *e = &board->entries[i];
        const uint32_t row[] = {e->address, e->old_value, e->new_value, e->old_version, e->new_version};
        at = chezumobari_put_numbers(at, row, sizeof row / sizeof *row);
    }
    whole = chezumobari_checksum(bytes, (size_t)(at - bytes));
    sum[0] = (uint32_t)whole;
    sum[1] = (uint32_t)(whole >> 32);
    chezumobari_put_numbers(at, sum, 2);
    return CHEZUMOBARI_DONE;
}

/* The sizes of a saved board, so that tables can be lent for it. Numbers 0, 31, 32, 33: all that is
 * wrong with the bytes themselves is said here. */
static inline uint32_t chezumobari_saved_sizes(const unsigned char *bytes, size_t length, chezumobari_sizes *sizes)
{
    uint32_t head[4], sum[2];
    size_t lacking; /* numbers that the version's places have not */
    if (length < CHEZUMOBARI_SAVED_HEAD + CHEZUMOBARI_SAVED_SUM || memcmp(bytes, "chezumob", 8) != 0)
        return CHEZUMOBARI_NOT_A_BOARD;
    chezumobari_get_numbers(bytes + 8, head, 4);
    if (chezumobari_saved_place(head[0]) == 0)
        return CHEZUMOBARI_OTHER_FORMAT;
    lacking = head[3] * (4 - chezumobari_saved_place(head[0]));
    if (head[1] > CHEZUMOBARI_MOST_WORDS || head[2] > CHEZUMOBARI_MOST_RECORDS || head[3] > CHEZUMOBARI_MOST_TASKS ||
        length != CHEZUMOBARI_SAVED_BYTES(head[1], head[2], head[3]) - lacking * sizeof(uint32_t))
        return CHEZUMOBARI_DAMAGED;
    chezumobari_get_numbers(bytes + length - CHEZUMOBARI_SAVED_SUM, sum, 2);
    if (((uint64_t)sum[1] << 32 | sum[0]) != chezumobari_checksum(bytes, length - CHEZUMOBARI_SAVED_SUM))
        return CHEZUMOBARI_DAMAGED;
    sizes->words = head[1];
    sizes->records = head[2];
    sizes->tasks = head[3];
    return CHEZUMOBARI_DONE;
}

/* Loads a board into tables that are lent for its sizes. Numbers 0, 1, 31, 32, 33, 34. After 31 to 34 the
 * tables hold what they held. After 1 they hold what was saved, and every call refuses them. */
static inline uint32_t chezumobari_load(const unsigned char *bytes, size_t length, const chezumobari_board *board)
{
    chezumobari_sizes z = {0, 0, 0};
    const unsigned char *at = bytes + CHEZUMOBARI_SAVED_HEAD;
    uint32_t number = chezumobari_saved_sizes(bytes, length, &z), format;
    if (number)
        return number;
    chezumobari_get_numbers(bytes + 8, &format, 1);
    if (z.words != board->sizes.words || z.records != board->sizes.records || z.tasks != board->sizes.tasks)
        return CHEZUMOBARI_OTHER_SIZES;
    at = chezumobari_get_numbers(at, board->words, z.words);
    at = chezumobari_get_numbers(at, board->records, z.records);
    for (size_t i = 0; i < z.tasks; i++) {
        chezumobari_place *p = &board->places[i];
        at = chezumobari_get_numbers(at, &p->count, 1);
        at = chezumobari_get_numbers(at, &p->phase, 1);
        at = chezumobari_get_numbers(at, &p->position, 1);
        p->joins = 0;
        at = chezumobari_get_numbers(at, &p->joins, chezumobari_saved_place(format) - 3);
    }
    for (size_t i = 0; i < CHEZUMOBARI_ENTRY_ROWS(z.tasks); i++) {
        chezumobari_entry *e = &board->entries[i];
        at = chezumobari_get_numbers(at, &e->address, 1);
        at = chezumobari_get_numbers(at, &e->old_value, 1);
        at = chezumobari_get_numbers(at, &e->new_value, 1);
        at = chezumobari_get_numbers(at, &e->old_version, 1);
        at = chezumobari_get_numbers(at, &e->new_version, 1);
    }
    return chezumobari_look(CHEZUMOBARI_LENT(*board), 0).number;
}

#ifdef __cplusplus
}
#endif

#endif
