/* What only C can show of bad input: null tables, a length one short for each of the nine functions, sizes, tasks
 * and addresses beyond 32 bits, each field of the structs where the code reads it, and the names of the numbers.
 * A refusal changes nothing. Ends with 1 at the first call that answers something else.
 *
 * Two others try the rest. crates/try_limits/stdin has each limit at its number and one past it, which number wins
 * where two apply, and a table that is unsound by each clause. tests/against_second_machine/damaged.rs has damage,
 * lengths and sizes at random. */
#include "chezumobari.h"

#include <stdio.h>
#include <stdlib.h>
#include <string.h>

enum { WORDS = 100, RECORDS = 10, TASKS = 4, RUN = CHEZUMOBARI_ENTRIES_PER_TASK };

/* All four tables in one block, so that a copy of it is a copy of everything. */
typedef struct tables {
    uint32_t words[WORDS], records[RECORDS];
    chezumobari_place places[TASKS];
    chezumobari_entry entries[CHEZUMOBARI_ENTRY_ROWS(TASKS)];
} tables;

static tables now, before;
static int checked;

/* How the tables are lent: a test that changes one of these puts it back. */
static chezumobari_sizes sizes = {.words = WORDS, .records = RECORDS, .tasks = TASKS};
static size_t rows[4] = {WORDS, RECORDS, TASKS, CHEZUMOBARI_ENTRY_ROWS(TASKS)};
static int null;

#define TABLE(name) (null ? NULL : now.name)
#define TABLES TABLE(words), rows[0], TABLE(records), rows[1], TABLE(places), rows[2], TABLE(entries), rows[3]
#define OPEN(first) chezumobari_open(sizes, first, TABLES)
#define ASK(request, ...) chezumobari_##request(sizes, TABLES, __VA_ARGS__)

static void expect(const char *what, uint32_t number, uint32_t wanted)
{
    if (number != wanted) {
        printf("%s: %u, wanted %u\n", what, (unsigned)number, (unsigned)wanted);
        exit(1);
    }
    checked++;
}

#define SAME(what, wanted) expect(#what, what, wanted)
#define DONE(call) SAME((call).number, CHEZUMOBARI_DONE)

/* The call is refused with this number, and the tables are what they were. */
#define REFUSED(call, wanted)                                                                      \
    do {                                                                                           \
        before = now;                                                                              \
        SAME((call).number, wanted);                                                               \
        expect(#call " changes nothing", memcmp(&before, &now, sizeof now) != 0, 0);               \
    } while (0)

/* Every request of a task answers this number. */
static void requests_refused(size_t task, uint32_t wanted)
{
    REFUSED(ASK(start, task), wanted);
    REFUSED(ASK(read, task, 0), wanted);
    REFUSED(ASK(write, task, 0, 1), wanted);
    REFUSED(ASK(abort, task), wanted);
    REFUSED(ASK(commit, task), wanted);
    REFUSED(ASK(wait, task), wanted);
    REFUSED(ASK(step, task), wanted);
}

/* So do all nine functions, but for the number of the opening. */
static void all_refused(uint32_t opening, uint32_t wanted)
{
    REFUSED(OPEN(1), opening);
    requests_refused(0, wanted);
    REFUSED(ASK(look, 0), wanted);
}

/* null is allowed where the length is 0 */
static void null_tables(void)
{
    const size_t good[4] = {rows[0], rows[1], rows[2], rows[3]};
    null = 1;
    memset(rows, 0, sizeof rows);
    all_refused(CHEZUMOBARI_UNSOUND, CHEZUMOBARI_UNSOUND);
    memcpy(rows, good, sizeof rows);
    null = 0;
}

static void lengths_one_short(void)
{
    for (int i = 0; i < 4; i++) {
        rows[i]--;
        all_refused(CHEZUMOBARI_UNSOUND, CHEZUMOBARI_UNSOUND);
        rows[i]++;
    }
}

/* Each would be good, or would ask for no entries, in fewer bits. */
static void beyond_32_bits(void)
{
    const size_t beyond = (size_t)1 << 32;
    const chezumobari_sizes good = sizes;
    const chezumobari_sizes bad[] = {
        {beyond + WORDS, RECORDS, TASKS}, {WORDS, beyond + RECORDS, TASKS}, {WORDS, RECORDS, beyond + TASKS},
        {WORDS, RECORDS, SIZE_MAX / RUN + 1}, {SIZE_MAX, SIZE_MAX, SIZE_MAX},
    };

    for (size_t i = 0; i < sizeof bad / sizeof *bad; i++) {
        sizes = bad[i];
        all_refused(CHEZUMOBARI_OUT_OF_RANGE, CHEZUMOBARI_UNSOUND);
    }
    sizes = good;
    requests_refused(beyond, CHEZUMOBARI_NO_SUCH_TASK);
    requests_refused(SIZE_MAX, CHEZUMOBARI_NO_SUCH_TASK);
    DONE(ASK(start, 0));
    for (size_t address = beyond; address != 0; address = address == beyond ? SIZE_MAX : 0) {
        REFUSED(ASK(read, 0, address), CHEZUMOBARI_NO_SUCH_ADDRESS);
        REFUSED(ASK(write, 0, address, 1), CHEZUMOBARI_NO_SUCH_ADDRESS);
        REFUSED(ASK(look, address), CHEZUMOBARI_NO_SUCH_ADDRESS);
    }
    DONE(ASK(abort, 0));
}

/* One wrong number in the tables, and every request and the look-up are refused. */
static void damaged(uint32_t *spot, uint32_t value)
{
    const uint32_t good = *spot;
    *spot = value;
    requests_refused(0, CHEZUMOBARI_UNSOUND);
    REFUSED(ASK(look, 0), CHEZUMOBARI_UNSOUND);
    *spot = good;
}

static uint32_t stepped_to_the_end(size_t task)
{
    uint32_t number;
    do
        number = ASK(step, task).number;
    while (number == CHEZUMOBARI_DONE);
    return number;
}

/* Task 1 has three entries on record 7. The numbers of a row are all different: a field in another's place shows. */
static void fields(void)
{
    const chezumobari_entry *entry = &now.entries[RUN];

    DONE(ASK(start, 0));
    DONE(ASK(write, 0, 7, 30));
    DONE(ASK(commit, 0));
    SAME(stepped_to_the_end(0), CHEZUMOBARI_COMMITTED);
    SAME(now.words[7], 30);
    SAME(now.records[7], 2);
    DONE(ASK(start, 1));
    DONE(ASK(write, 1, 7, 5));
    DONE(ASK(read, 1, 17));
    DONE(ASK(read, 1, 27));
    SAME(entry->address, 7);
    SAME(entry->old_value, 30);
    SAME(entry->new_value, 5);
    SAME(entry->old_version, 2);
    SAME(entry->new_version, 3);
    SAME(ASK(read, 1, 7).value, 5);
    DONE(ASK(commit, 1));
    DONE(ASK(step, 1));
    SAME(now.records[7], CHEZUMOBARI_FIRST_OWNER + 1);
    SAME(now.places[1].count, 3);
    SAME(now.places[1].phase, CHEZUMOBARI_PHASE_TAKING_TO_COMMIT);
    SAME(now.places[1].position, 1);
    SAME(ASK(look, 7).value, 30);
    SAME(ASK(look, 7).version, 2);
}

/* The same board, with one damage for each field. Any value is good, and is shown. */
static void fields_damaged(void)
{
    chezumobari_entry *entry = &now.entries[RUN];

    damaged(&now.records[3], 0);
    damaged(&now.places[1].count, RUN + 1);
    damaged(&now.places[1].phase, CHEZUMOBARI_PHASE_IDLE);
    damaged(&now.places[1].position, 4);
    damaged(&entry->address, WORDS);
    damaged(&entry->old_version, 0);
    damaged(&entry->new_version, 4);
    entry->old_value = 31;
    SAME(ASK(look, 7).value, 31);
    entry->new_value = 6;
    SAME(stepped_to_the_end(1), CHEZUMOBARI_COMMITTED);
    SAME(now.words[7], 6);
}

static void sleeps_on(size_t task, size_t one, size_t other)
{
    DONE(ASK(start, task));
    DONE(ASK(read, task, one));
    DONE(ASK(read, task, other));
    DONE(ASK(wait, task));
    SAME(stepped_to_the_end(task), CHEZUMOBARI_ASLEEP);
}

/* Task 1 is on the list of task 0, and task 2 on that of task 1. Each damage is a list that cannot be. */
static void lists(void)
{
    sleeps_on(0, 3, 13);
    sleeps_on(1, 23, 4);
    sleeps_on(2, 14, 5);
    SAME(now.places[0].joins, 0);
    SAME(now.places[1].joins, 1 << 0);
    SAME(now.places[2].joins, 1 << 1);
    SAME(now.records[3], CHEZUMOBARI_FIRST_OWNER);
    SAME(now.records[4], CHEZUMOBARI_FIRST_OWNER + 1);
    damaged(&now.places[1].joins, 1u << TASKS);
    damaged(&now.places[1].joins, UINT32_MAX);
    damaged(&now.places[2].joins, 1 << 2);                              /* its own */
    damaged(&now.places[0].joins, 1 << 1);                              /* a way back, of two */
    damaged(&now.places[0].joins, 1 << 2);                              /* and of three */
    damaged(&now.places[1].joins, 1 << 3);                              /* that of one who does not sleep */
    damaged(&now.places[3].joins, 1 << 0);                              /* one who is idle is on it */
    damaged(&now.places[0].phase, CHEZUMOBARI_PHASE_RELEASING_WOKEN);   /* one with a list does not sleep */
    damaged(&now.places[2].phase, CHEZUMOBARI_PHASE_TAKING_TO_COMMIT);  /* one who would commit is on it */
    damaged(&now.places[2].phase, CHEZUMOBARI_PHASE_WRITING);
    now.places[2].joins = 1 << 0 | 1 << 1; /* on both lists: that can be */
    SAME(ASK(step, 2).number, CHEZUMOBARI_ASLEEP);
    DONE(ASK(start, 3));
    DONE(ASK(write, 3, 3, 8));
    DONE(ASK(commit, 3));
    DONE(ASK(step, 3));
    SAME(now.places[3].phase, CHEZUMOBARI_PHASE_RELEASING_FAILED);
    for (int task = 0; task < 3; task++) {
        SAME(now.places[task].phase, CHEZUMOBARI_PHASE_RELEASING_WOKEN);
        SAME(now.places[task].joins, 0);
    }
}

/* The numbers of the specification, under their names. */
static void names(void)
{
    static const uint32_t answers[] = {
        CHEZUMOBARI_DONE, CHEZUMOBARI_UNSOUND, CHEZUMOBARI_OUT_OF_RANGE, CHEZUMOBARI_NO_SUCH_TASK,
        CHEZUMOBARI_WRONG_PHASE, CHEZUMOBARI_NO_SUCH_ADDRESS, CHEZUMOBARI_FULL, CHEZUMOBARI_NOTHING_TO_SLEEP_ON,
        CHEZUMOBARI_VERSIONS_USED_UP, CHEZUMOBARI_OVERTAKEN,
    };
    static const uint32_t of_steps[] = {
        CHEZUMOBARI_ASLEEP, CHEZUMOBARI_COMMITTED, CHEZUMOBARI_FAILED, CHEZUMOBARI_WOKEN,
    };
    static const uint32_t phases[] = {
        CHEZUMOBARI_PHASE_IDLE, CHEZUMOBARI_PHASE_OPEN, CHEZUMOBARI_PHASE_TAKING_TO_COMMIT,
        CHEZUMOBARI_PHASE_TAKING_TO_SLEEP, CHEZUMOBARI_PHASE_ASLEEP, CHEZUMOBARI_PHASE_WRITING,
        CHEZUMOBARI_PHASE_RELEASING_COMMITTED, CHEZUMOBARI_PHASE_RELEASING_FAILED, CHEZUMOBARI_PHASE_RELEASING_WOKEN,
    };

    for (uint32_t i = 0; i < sizeof answers / sizeof *answers; i++)
        SAME(answers[i], i);
    for (uint32_t i = 0; i < sizeof of_steps / sizeof *of_steps; i++)
        SAME(of_steps[i], 20 + i);
    for (uint32_t i = 0; i < sizeof phases / sizeof *phases; i++)
        SAME(phases[i], i);
    SAME(CHEZUMOBARI_MOST_WORDS, 4096);
    SAME(CHEZUMOBARI_MOST_RECORDS, 1024);
    SAME(CHEZUMOBARI_MOST_TASKS, 32);
    SAME(CHEZUMOBARI_ENTRIES_PER_TASK, 64);
    SAME(CHEZUMOBARI_TOP_VERSION, 2147483647);
    SAME(CHEZUMOBARI_FIRST_OWNER, 2147483648);
}

int main(void)
{
    DONE(OPEN(1));
    null_tables();
    lengths_one_short();
    beyond_32_bits();
    fields();
    fields_damaged();
    lists();
    names();
    printf("%d answers are as they should be\n", checked);
    return 0;
}
