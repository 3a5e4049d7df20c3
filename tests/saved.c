/* Saved boards from C: the same bytes as from Rust, loaded again, also those of version 1 of the format, and
 * damage refused. Ends with 1 at the first thing that is not as it should be. */
#include "chezumobari_saved.h"
#include "chezumobari_turns.h"

#include <inttypes.h>
#include <stdio.h>
#include <stdlib.h>

enum {
    WORDS = 6, RECORDS = 5, TASKS = 3,
    BYTES = CHEZUMOBARI_SAVED_BYTES(WORDS, RECORDS, TASKS),
    PLACES = CHEZUMOBARI_SAVED_HEAD + 4 * (WORDS + RECORDS), /* where the places begin */
    BYTES_IN_1 = BYTES - 4 * TASKS                           /* in version 1 a place had a number fewer */
};

typedef struct tables {
    uint32_t words[WORDS], records[RECORDS];
    chezumobari_place places[TASKS];
    chezumobari_entry entries[CHEZUMOBARI_ENTRY_ROWS(TASKS)];
} tables;

static tables first, second, before;
static unsigned char bytes[BYTES + 1], in_1[BYTES_IN_1];

static void see(int right, const char *what)
{
    if (!right) {
        printf("saved: %s\n", what);
        exit(1);
    }
}

static chezumobari_board over(tables *t)
{
    chezumobari_board board = {{WORDS, RECORDS, TASKS}, t->words, t->records, t->places, t->entries};
    return board;
}

static chezumobari_end sleep_on_two(chezumobari_turn *turn, void *with)
{
    (void)with;
    chezumobari_get(turn, 0);
    chezumobari_get(turn, 1);
    return CHEZUMOBARI_THEN_SLEEP;
}

static chezumobari_end write_one(chezumobari_turn *turn, void *with)
{
    (void)with;
    chezumobari_put(turn, 1, 5);
    return CHEZUMOBARI_THEN_COMMIT;
}

/* A label asleep on two words, a transaction that is open, and one that has decided. */
static void in_the_middle(chezumobari_board b)
{
    see(chezumobari_open(b.sizes, 7, CHEZUMOBARI_TABLES(b)).number == 0, "not opened");
    see(chezumobari_take_turn(&b, 0, sleep_on_two, NULL) == CHEZUMOBARI_ASLEEP, "the label does not sleep");
    see(chezumobari_start(CHEZUMOBARI_LENT(b), 1).number == 0, "not started");
    see(chezumobari_write(CHEZUMOBARI_LENT(b), 1, 2, 3000000000u).number == 0, "not written");
    see(chezumobari_start(CHEZUMOBARI_LENT(b), 2).number == 0, "not started");
    see(chezumobari_write(CHEZUMOBARI_LENT(b), 2, 3, 65535).number == 0, "not written");
    see(chezumobari_commit(CHEZUMOBARI_LENT(b), 2).number == 0, "no commit");
    see(chezumobari_step(CHEZUMOBARI_LENT(b), 2).number == 0, "no step");
    see(chezumobari_step(CHEZUMOBARI_LENT(b), 2).number == 0, "no step");
}

/* Puts the checksum behind bytes, and says how many they are with it. */
static void say_bytes(unsigned char *given, size_t length, const char *where)
{
    uint64_t whole = chezumobari_checksum(given, length - CHEZUMOBARI_SAVED_SUM);
    const uint32_t sum[2] = {(uint32_t)whole, (uint32_t)(whole >> 32)};
    chezumobari_put_numbers(given + length - CHEZUMOBARI_SAVED_SUM, sum, 2);
    printf("%d bytes%s, checksum %016" PRIx64 "\n", (int)length, where, whole);
}

/* The saved board as version 1 had it: each place without its last number. */
static void make_version_1(void)
{
    const uint32_t one = 1;
    memcpy(in_1, bytes, PLACES);
    chezumobari_put_numbers(in_1 + 8, &one, 1);
    for (int task = 0; task < TASKS; task++)
        memcpy(in_1 + PLACES + 12 * task, bytes + PLACES + 16 * task, 12);
    memcpy(in_1 + PLACES + 12 * TASKS, bytes + PLACES + 16 * TASKS, BYTES - PLACES - 16 * TASKS);
}

/* Loading is refused with this number, and the tables are what they were. */
static void refused(const unsigned char *given, size_t length, uint32_t wanted)
{
    chezumobari_board b = over(&second);
    before = second;
    see(chezumobari_load(given, length, &b) == wanted, "damage was not refused by its number");
    see(memcmp(&before, &second, sizeof before) == 0, "a refused load changed the tables");
}

static void damage(void)
{
    for (size_t at = 0; at < BYTES; at++) {
        bytes[at] ^= 1;
        refused(bytes, BYTES, at < 8 ? CHEZUMOBARI_NOT_A_BOARD : at < 12 ? CHEZUMOBARI_OTHER_FORMAT : CHEZUMOBARI_DAMAGED);
        bytes[at] ^= 1;
        refused(bytes, at, at < 32 ? CHEZUMOBARI_NOT_A_BOARD : CHEZUMOBARI_DAMAGED);
    }
    refused(bytes, BYTES + 1, CHEZUMOBARI_DAMAGED);
    for (size_t at = 12; at < BYTES_IN_1; at++) {
        in_1[at] ^= 1;
        refused(in_1, BYTES_IN_1, CHEZUMOBARI_DAMAGED);
        in_1[at] ^= 1;
        refused(in_1, at, at < 32 ? CHEZUMOBARI_NOT_A_BOARD : CHEZUMOBARI_DAMAGED);
    }
}

/* A sleeper's list is saved, and a trade wakes all on it. */
static void lists(chezumobari_board b, chezumobari_board loaded)
{
    chezumobari_turn turn;
    see(chezumobari_open(b.sizes, 1, CHEZUMOBARI_TABLES(b)).number == 0, "not opened");
    see(chezumobari_take_turn(&b, 0, sleep_on_two, NULL) == CHEZUMOBARI_ASLEEP, "the first does not sleep");
    see(chezumobari_take_turn(&b, 2, sleep_on_two, NULL) == CHEZUMOBARI_ASLEEP, "the second does not sleep");
    see(first.places[2].joins == 1, "the second is on no list");
    see(chezumobari_save(&b, bytes, BYTES) == CHEZUMOBARI_DONE, "lists are not saved");
    see(chezumobari_load(bytes, BYTES, &loaded) == CHEZUMOBARI_DONE, "lists are not loaded");
    see(memcmp(&first, &second, sizeof first) == 0, "the loaded lists are others");
    see(chezumobari_whole_turn(&loaded, NULL, 1, write_one, NULL, &turn) == CHEZUMOBARI_COMMITTED && turn.tries == 2,
        "the trade did not wake both with one try");
    see(second.places[0].phase == CHEZUMOBARI_PHASE_IDLE, "the first sleeps on");
    see(second.places[2].phase == CHEZUMOBARI_PHASE_IDLE, "the second sleeps on");
}

int main(void)
{
    chezumobari_board b = over(&first), loaded = over(&second);
    chezumobari_sizes sizes;
    chezumobari_turn turn;

    in_the_middle(b);
    see(chezumobari_save(&b, bytes, BYTES - 1) == CHEZUMOBARI_TOO_SHORT, "too few bytes were taken");
    see(chezumobari_save(&b, bytes, sizeof bytes) == CHEZUMOBARI_DONE, "not saved");
    say_bytes(bytes, BYTES, "");
    make_version_1();
    say_bytes(in_1, BYTES_IN_1, " in version 1");
    damage();
    see(chezumobari_saved_sizes(bytes, BYTES, &sizes) == CHEZUMOBARI_DONE && sizes.words == WORDS, "no sizes");
    loaded.sizes.records--;
    see(chezumobari_load(bytes, BYTES, &loaded) == CHEZUMOBARI_OTHER_SIZES, "other sizes were taken");
    loaded.sizes.records++;
    see(chezumobari_load(bytes, BYTES, &loaded) == CHEZUMOBARI_DONE, "not loaded");
    see(memcmp(&first, &second, sizeof first) == 0, "the loaded board is another");
    memset(&second, 255, sizeof second);
    see(chezumobari_load(in_1, BYTES_IN_1, &loaded) == CHEZUMOBARI_DONE, "version 1 is not loaded");
    see(memcmp(&first, &second, sizeof first) == 0, "the board of version 1 is another");

    see(second.places[0].phase == CHEZUMOBARI_PHASE_ASLEEP, "the sleeper does not sleep on");
    see(chezumobari_calm_down(&loaded) == CHEZUMOBARI_DONE, "the board is not calm");
    see(second.places[0].phase == CHEZUMOBARI_PHASE_ASLEEP && second.words[3] == 65535, "calm is not calm");
    see(chezumobari_whole_turn(&loaded, NULL, 1, write_one, NULL, &turn) == CHEZUMOBARI_COMMITTED && turn.tries == 2,
        "the trade did not wake the sleeper");

    lists(b, loaded);
    printf("the loaded board is the saved one, and all damage was refused\n");
    return 0;
}
