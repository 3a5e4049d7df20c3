/* Whole turns and the line from C. Ends with 1 at the first turn that is not as it should be: a commit
 * that was tried more than once more than the sleepers in its way, a lost or half done one, a task that
 * is left open or woken by one that would only sleep, or writers that never come through. */
#include "chezumobari_turns.h"

#include <stdio.h>
#include <stdlib.h>

enum { WORDS = 12, TASKS = 8, TURNS = 50000, DEALS = 200, MOST_ROUNDS = 200000 };

static uint32_t words[WORDS], records[WORDS], serial[WORDS];
static chezumobari_place places[TASKS];
static chezumobari_entry entries[CHEZUMOBARI_ENTRY_ROWS(TASKS)];
static chezumobari_board board = {{WORDS, WORDS, TASKS}, words, records, places, entries};
static uint64_t state = 1311;

static size_t below(size_t n) /* a random number below n (xorshift) */
{
    state ^= state << 13;
    state ^= state >> 7;
    state ^= state << 17;
    return (size_t)((state >> 32) % n);
}

static void see(int right, const char *what)
{
    if (!right) {
        printf("turns: %s\n", what);
        exit(1);
    }
}

static void open_board(size_t record_count)
{
    board.sizes.records = record_count;
    memset(serial, 0, sizeof serial);
    see(chezumobari_open(board.sizes, 1, CHEZUMOBARI_TABLES(board)).number == CHEZUMOBARI_DONE, "not opened");
}

static int calm(void)
{
    for (size_t task = 0; task < TASKS; task++)
        if (places[task].phase != CHEZUMOBARI_PHASE_IDLE && places[task].phase != CHEZUMOBARI_PHASE_ASLEEP)
            return 0;
    return 1;
}

static unsigned sleepers(void)
{
    unsigned count = 0;
    for (size_t task = 0; task < TASKS; task++)
        count += places[task].phase == CHEZUMOBARI_PHASE_ASLEEP;
    return count;
}

/* What a turn of the random game does: adds 1 to some words, or sleeps on them. */
typedef struct plan {
    size_t addresses[6], count;
    chezumobari_end end;
} plan;

static chezumobari_end play(chezumobari_turn *turn, void *with)
{
    const plan *p = (const plan *)with;
    for (size_t i = 0; i < p->count; i++) {
        uint32_t value = chezumobari_get(turn, p->addresses[i]);
        see(value == serial[p->addresses[i]], "a task was told what was not on the board");
        if (p->end != CHEZUMOBARI_THEN_SLEEP)
            chezumobari_put(turn, p->addresses[i], value + 1);
    }
    return p->end;
}

static plan some_plan(size_t task)
{
    plan p = {{0}, 0, (chezumobari_end)below(3)};
    size_t first = below(WORDS);
    if (task == 0 && p.end == CHEZUMOBARI_THEN_SLEEP) /* it never sleeps: who sleeps wakes nobody */
        p.end = CHEZUMOBARI_THEN_COMMIT;
    p.count = 1 + below(6);
    for (size_t i = 0; i < p.count; i++)
        p.addresses[i] = (first + 5 * i) % WORDS;
    return p;
}

typedef struct counts {
    unsigned commits, most, joined;
} counts;

static void whole_turns(size_t record_count, counts *seen)
{
    static const uint32_t wanted[] = {CHEZUMOBARI_COMMITTED, CHEZUMOBARI_ASLEEP, CHEZUMOBARI_DONE};
    open_board(record_count);
    for (int i = 0; i < TURNS; i++) {
        size_t task = below(TASKS);
        plan p = some_plan(task);
        unsigned k = chezumobari_in_the_way(&board, p.addresses, p.count), asleep = sleepers();
        chezumobari_turn turn;
        if (places[task].phase == CHEZUMOBARI_PHASE_ASLEEP)
            continue;
        see(chezumobari_whole_turn(&board, NULL, task, play, &p, &turn) == wanted[p.end], "a turn ended otherwise");
        see(turn.tries <= k + 1, "a turn was tried too often");
        if (p.end == CHEZUMOBARI_THEN_SLEEP)
            see(turn.tries == 1 && sleepers() == asleep + 1, "one that would sleep failed, or woke another");
        see(calm(), "a task was left on its way");
        for (size_t j = 0; j < p.count && p.end == CHEZUMOBARI_THEN_COMMIT; j++)
            serial[p.addresses[j]]++;
        seen->commits += p.end == CHEZUMOBARI_THEN_COMMIT;
        seen->joined += places[task].joins != 0;
        seen->most = turn.tries > seen->most ? turn.tries : seen->most;
    }
}

static chezumobari_end wrong_address(chezumobari_turn *turn, void *with)
{
    chezumobari_put(turn, 0, 1);
    chezumobari_get(turn, *(const size_t *)with);
    return CHEZUMOBARI_THEN_COMMIT;
}

static chezumobari_end reads_nothing(chezumobari_turn *turn, void *with)
{
    (void)turn;
    (void)with;
    return CHEZUMOBARI_THEN_SLEEP;
}

static void refusals(void)
{
    size_t beyond = WORDS;
    open_board(WORDS);
    see(chezumobari_take_turn(&board, 0, wrong_address, &beyond) == CHEZUMOBARI_NO_SUCH_ADDRESS, "not answered 5");
    see(chezumobari_take_turn(&board, 0, reads_nothing, NULL) == CHEZUMOBARI_NOTHING_TO_SLEEP_ON, "not answered 7");
    see(chezumobari_take_turn(&board, TASKS, reads_nothing, NULL) == CHEZUMOBARI_NO_SUCH_TASK, "not answered 3");
    see(calm() && words[0] == 0, "a refused turn left something behind");
}

/* The line, one call a turn: writers that take two words in each other's order, labels as whole turns. */
static chezumobari_end sleep_on(chezumobari_turn *turn, void *with)
{
    chezumobari_get(turn, *(const size_t *)with);
    return CHEZUMOBARI_THEN_SLEEP;
}

static int in_line(void)
{
    enum { WRITERS = 5 };
    chezumobari_line line = {0, {0}, 0, 0, {0}};
    unsigned done[WRITERS] = {0}, at[WRITERS] = {0}, all = 0;
    int round;
    open_board(WORDS);
    for (round = 0; all < WRITERS * DEALS; round++) {
        see(round < MOST_ROUNDS, "the writers do not come through");
        for (size_t i = 0; i < TASKS; i++) {
            size_t task = round % 3 == 2 ? TASKS - 1 - i : i, word = task % 3;
            size_t address = (task + at[task < WRITERS ? task : 0] / 2) % 3;
            chezumobari_turn turn;
            if (task >= WRITERS) {
                if (places[task].phase != CHEZUMOBARI_PHASE_ASLEEP && chezumobari_may_begin(&line, &board, task))
                    chezumobari_whole_turn(&board, &line, task, sleep_on, &word, &turn);
                continue;
            }
            if (chezumobari_on_its_way(&line, &board, task)) {
                if (chezumobari_line_step(&line, &board, task) == CHEZUMOBARI_COMMITTED)
                    done[task]++, all++;
            } else if (places[task].phase == CHEZUMOBARI_PHASE_IDLE) {
                at[task] = 0;
                if (done[task] < DEALS && chezumobari_may_begin(&line, &board, task))
                    chezumobari_start(CHEZUMOBARI_LENT(board), task);
            } else if (at[task] == 4) {
                chezumobari_commit(CHEZUMOBARI_LENT(board), task);
            } else {
                chezumobari_answer read = chezumobari_read(CHEZUMOBARI_LENT(board), task, address);
                if (at[task]++ % 2)
                    chezumobari_write(CHEZUMOBARI_LENT(board), task, address, read.value + 1);
            }
        }
    }
    see(words[0] + words[1] + words[2] == 2 * WRITERS * DEALS, "a deal was lost");
    return round;
}

int main(void)
{
    counts seen = {0, 0, 0};
    whole_turns(WORDS, &seen);
    whole_turns(5, &seen);
    whole_turns(1, &seen);
    refusals();
    printf("whole turns: %u commits, none beyond its tries, %u at the most\n", seen.commits, seen.most);
    printf("%u turns ended asleep on a list, and none of them woke a sleeper\n", seen.joined);
    printf("the line: %d rounds, and no deal was lost\n", in_line());
    return 0;
}
