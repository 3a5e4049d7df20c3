/* chezumobari.h: a proved transactional memory for games that are played by ear.
 *
 * A board is a few thousand words of 32 bits. Small tasks, stepped in turn, read and write it in
 * transactions, commit, or sleep on the words that they read. The library keeps nothing of its own:
 * the caller lends it four tables with every call. Linking needs libchezumobari.a and nothing else.
 *
 * Every call checks first that the tables are those of a board with the given sizes. Whatever they
 * hold, however long they are and whichever numbers go with the call, a call that is refused answers
 * a number and changes nothing (9 alone also ends the transaction). Only a pointer must be good: it
 * points to as many rows as the length beside it says, and is aligned as C aligns its type, to 4
 * bytes. Where the length is 0 it may be null.
 *
 * The tables must not overlap. One call at a time: a program with threads takes its own lock.
 */
#ifndef CHEZUMOBARI_H
#define CHEZUMOBARI_H

#include <stddef.h>
#include <stdint.h>

#ifdef __cplusplus
extern "C" {
#endif

/* The version of the library. The archive, the pkg-config file and the CMake target take it from this
 * line, and a test compares the Rust package's. */
#define CHEZUMOBARI_VERSION "0.10.0"
/* The version that the archive was built as: the same text, if header and archive go together. */
extern const char chezumobari_version[];

/* Limits. Each size is at least 1. */
#define CHEZUMOBARI_MOST_WORDS 4096
#define CHEZUMOBARI_MOST_RECORDS 1024
#define CHEZUMOBARI_MOST_TASKS 32
#define CHEZUMOBARI_ENTRIES_PER_TASK 64
#define CHEZUMOBARI_TOP_VERSION 2147483647u
/* A record's number from here on is an owner's: this number plus the task. */
#define CHEZUMOBARI_FIRST_OWNER 2147483648u

/* The numbers that a call answers. Where several apply, the order is 1, 3, 4, 5, 6, 9, 8, and for
 * a wait 1, 3, 4, 7; an opening answers 2 before 1. */
#define CHEZUMOBARI_DONE 0             /* done, or a step that is none of 20 to 23 */
#define CHEZUMOBARI_UNSOUND 1          /* the tables are unsound */
#define CHEZUMOBARI_OUT_OF_RANGE 2     /* opening with a size or first version outside its range */
#define CHEZUMOBARI_NO_SUCH_TASK 3     /* the task number is not below the number of tasks */
#define CHEZUMOBARI_WRONG_PHASE 4      /* the task's phase does not allow the request */
#define CHEZUMOBARI_NO_SUCH_ADDRESS 5  /* the address is not below the number of words */
#define CHEZUMOBARI_FULL 6             /* a new address with CHEZUMOBARI_ENTRIES_PER_TASK entries present */
#define CHEZUMOBARI_NOTHING_TO_SLEEP_ON 7 /* a wait with no entries */
#define CHEZUMOBARI_VERSIONS_USED_UP 8 /* a write where the record's old version is the highest */
#define CHEZUMOBARI_OVERTAKEN 9        /* the record of a new address has changed: the transaction has ended */
#define CHEZUMOBARI_ASLEEP 20          /* a step after which the task is asleep */
#define CHEZUMOBARI_COMMITTED 21       /* a step that ended the transaction: committed, */
#define CHEZUMOBARI_FAILED 22          /* failed, */
#define CHEZUMOBARI_WOKEN 23           /* woken */

/* The sizes of a board: 1 to 4,096 words, 1 to 1,024 records, 1 to 32 tasks.
 * Address a belongs to record a mod records. */
typedef struct chezumobari_sizes {
    size_t words;
    size_t records;
    size_t tasks;
} chezumobari_sizes;

/* What a request answers. The value is 0 except for a read that answers 0 as its number. */
typedef struct chezumobari_answer {
    uint32_t number;
    uint32_t value;
} chezumobari_answer;

/* What a look-up answers: the logical value and version of the address. */
typedef struct chezumobari_looked {
    uint32_t number;
    uint32_t value;
    uint32_t version;
} chezumobari_looked;

/* A task's row: how many entries it has, its phase, its position, and the sleepers on whose lists it is.
 * A program may look at the phase, for example to pass over a task that sleeps; it writes none of it. */
typedef struct chezumobari_place {
    uint32_t count;
    uint32_t phase;
    uint32_t position;
    uint32_t joins; /* a set: bit t is 1 if this task is on the list of task t */
} chezumobari_place;

#define CHEZUMOBARI_PHASE_IDLE 0
#define CHEZUMOBARI_PHASE_OPEN 1
#define CHEZUMOBARI_PHASE_TAKING_TO_COMMIT 2
#define CHEZUMOBARI_PHASE_TAKING_TO_SLEEP 3
#define CHEZUMOBARI_PHASE_ASLEEP 4
#define CHEZUMOBARI_PHASE_WRITING 5
#define CHEZUMOBARI_PHASE_RELEASING_COMMITTED 6
#define CHEZUMOBARI_PHASE_RELEASING_FAILED 7
#define CHEZUMOBARI_PHASE_RELEASING_WOKEN 8

/* An entry's row. */
typedef struct chezumobari_entry {
    uint32_t address;
    uint32_t old_value;
    uint32_t new_value;
    uint32_t old_version;
    uint32_t new_version;
} chezumobari_entry;

/* How much to lend for given sizes: rows of each table, and bytes of all four. */
#define CHEZUMOBARI_WORD_ROWS(words) ((size_t)(words))
#define CHEZUMOBARI_RECORD_ROWS(records) ((size_t)(records))
#define CHEZUMOBARI_PLACE_ROWS(tasks) ((size_t)(tasks))
#define CHEZUMOBARI_ENTRY_ROWS(tasks) ((size_t)(tasks) * CHEZUMOBARI_ENTRIES_PER_TASK)
#define CHEZUMOBARI_BYTES(words, records, tasks)                                                   \
    (CHEZUMOBARI_WORD_ROWS(words) * sizeof(uint32_t) +                                             \
     CHEZUMOBARI_RECORD_ROWS(records) * sizeof(uint32_t) +                                         \
     CHEZUMOBARI_PLACE_ROWS(tasks) * sizeof(chezumobari_place) +                                   \
     CHEZUMOBARI_ENTRY_ROWS(tasks) * sizeof(chezumobari_entry))

/* Opens a board: every word and every entry 0, every record at the first version (1 to
 * 2,147,483,647), every task idle and on no list. Looks only at the sizes and the first version (2),
 * then at the lengths (1), and not at what the tables hold. */
chezumobari_answer chezumobari_open(
    chezumobari_sizes sizes, uint32_t first_version,
    uint32_t *words, size_t words_length, uint32_t *records, size_t records_length,
    chezumobari_place *places, size_t places_length, chezumobari_entry *entries, size_t entries_length);

/* Start: Idle to Open, no entries. Numbers 0, 1, 3, 4. */
chezumobari_answer chezumobari_start(
    chezumobari_sizes sizes,
    const uint32_t *words, size_t words_length, const uint32_t *records, size_t records_length,
    chezumobari_place *places, size_t places_length, const chezumobari_entry *entries, size_t entries_length,
    size_t task);

/* Read, in Open: the new value of the transaction's entry for the address. If it has none, one is
 * added with the logical value and version. Numbers 0, 1, 3, 4, 5, 6, 9. */
chezumobari_answer chezumobari_read(
    chezumobari_sizes sizes,
    const uint32_t *words, size_t words_length, const uint32_t *records, size_t records_length,
    chezumobari_place *places, size_t places_length, chezumobari_entry *entries, size_t entries_length,
    size_t task, size_t address);

/* Write, in Open: as a read to get an entry, then its new value is set, and the new version of each
 * entry of this task on that record becomes the old version plus 1. Storing the value already there
 * counts as a write. Numbers 0, 1, 3, 4, 5, 6, 9, 8. */
chezumobari_answer chezumobari_write(
    chezumobari_sizes sizes,
    const uint32_t *words, size_t words_length, const uint32_t *records, size_t records_length,
    chezumobari_place *places, size_t places_length, chezumobari_entry *entries, size_t entries_length,
    size_t task, size_t address, uint32_t value);

/* Abort: Open to Idle, entries dropped. Numbers 0, 1, 3, 4. */
chezumobari_answer chezumobari_abort(
    chezumobari_sizes sizes,
    const uint32_t *words, size_t words_length, const uint32_t *records, size_t records_length,
    chezumobari_place *places, size_t places_length, const chezumobari_entry *entries, size_t entries_length,
    size_t task);

/* Commit: Open to taking records for a commit. No entries is allowed. With n entries it ends within
 * 3n + 3 steps of this task whatever other tasks do. Numbers 0, 1, 3, 4. */
chezumobari_answer chezumobari_commit(
    chezumobari_sizes sizes,
    const uint32_t *words, size_t words_length, const uint32_t *records, size_t records_length,
    chezumobari_place *places, size_t places_length, const chezumobari_entry *entries, size_t entries_length,
    size_t task);

/* Wait: Open to taking records for sleep. Where another sleeps already, the steps join its list. Numbers
 * 0, 1, 3, 4, 7. */
chezumobari_answer chezumobari_wait(
    chezumobari_sizes sizes,
    const uint32_t *words, size_t words_length, const uint32_t *records, size_t records_length,
    chezumobari_place *places, size_t places_length, const chezumobari_entry *entries, size_t entries_length,
    size_t task);

/* Step, in neither Idle nor Open: takes one record, decides, writes one word or releases one
 * record. A task that meets another owner fails; that owner, if it is taking, fails too, and if it
 * is asleep, is woken. But one that would sleep and meets a sleeper does not wake it: it joins the
 * sleeper's list and goes on, if both have seen the record at one version, and otherwise fails alone.
 * With a sleeper all on its list end too, and all on theirs: who sleeps is woken, and who is still taking
 * fails. A task that goes idle is off every list. Numbers 0, 1, 3, 4, 20, 21, 22, 23. */
chezumobari_answer chezumobari_step(
    chezumobari_sizes sizes,
    uint32_t *words, size_t words_length, uint32_t *records, size_t records_length,
    chezumobari_place *places, size_t places_length, const chezumobari_entry *entries, size_t entries_length,
    size_t task);

/* Look: the logical value and version of an address, whatever is half written. Changes nothing.
 * Number 1, then 5, with both results 0, otherwise 0. */
chezumobari_looked chezumobari_look(
    chezumobari_sizes sizes,
    const uint32_t *words, size_t words_length, const uint32_t *records, size_t records_length,
    const chezumobari_place *places, size_t places_length, const chezumobari_entry *entries, size_t entries_length,
    size_t address);

/* The four tables and the sizes in one place, for the arguments that all calls share. */
typedef struct chezumobari_board {
    chezumobari_sizes sizes;
    uint32_t *words;
    uint32_t *records;
    chezumobari_place *places;
    chezumobari_entry *entries;
} chezumobari_board;

/* For tables whose lengths are those that the sizes ask:
 *     chezumobari_read(CHEZUMOBARI_LENT(board), task, address)
 * The argument is used several times, so it is a name or a plain expression. */
#define CHEZUMOBARI_LENT(board) (board).sizes, CHEZUMOBARI_TABLES(board)
/* The same without the sizes, for the opening, whose first version stands between. */
#define CHEZUMOBARI_TABLES(board)                                                                  \
    (board).words, (board).sizes.words, (board).records, (board).sizes.records,                    \
    (board).places, (board).sizes.tasks, (board).entries, CHEZUMOBARI_ENTRY_ROWS((board).sizes.tasks)

#ifdef __cplusplus
}
#endif

#endif
