/* chezumobari_turns.h: whole turns and labels that sleep, over chezumobari.h. Header only, C99.
 *
 * A whole turn is a transaction from its start to its end with nobody's call between: start, reads and
 * writes, commit or wait, and all steps. If it fails, whoever it met is stepped to its end and the body
 * is run again, in the same turn. Where every other task is idle or asleep, a turn that commits is
 * through at try k + 1 or before, where k is the number of sleepers that own a record of its addresses.
 * Those on their lists are woken with them and cost no try of their own.
 *
 * Tasks whose transactions span turns keep the line instead: chezumobari_line.h.
 */
#ifndef CHEZUMOBARI_TURNS_H
#define CHEZUMOBARI_TURNS_H

#include "chezumobari.h"
#include "chezumobari_line.h"

#include <string.h>

#ifdef __cplusplus
extern "C" {
#endif

/* A turn on its way. A body reads and writes by it. */
typedef struct chezumobari_turn {
    const chezumobari_board *board;
    size_t task;
    uint32_t refused; /* the first number that was not 0: then nothing more is called, and it is given up */
    unsigned tries;   /* how often the body was run */
    unsigned calls;   /* calls of the library */
} chezumobari_turn;

/* How a body wants its transaction to end. */
typedef enum chezumobari_end {
    CHEZUMOBARI_THEN_COMMIT,
    CHEZUMOBARI_THEN_SLEEP, /* on what was read, until a task that would commit comes to one of these words */
    CHEZUMOBARI_THEN_GIVE_UP
} chezumobari_end;

/* The body of a transaction. It may be run several times in a turn, and does nothing but compute. */
typedef chezumobari_end chezumobari_body(chezumobari_turn *turn, void *with);

/* What a body calls: the value of a word, and a new value for it. After a refusal they do nothing. */
static inline uint32_t chezumobari_get(chezumobari_turn *turn, size_t address)
{
    chezumobari_answer answer;
    if (turn->refused)
        return 0;
    answer = chezumobari_read(CHEZUMOBARI_LENT(*turn->board), turn->task, address);
    turn->calls++;
    turn->refused = answer.number;
    return answer.value;
}

static inline void chezumobari_put(chezumobari_turn *turn, size_t address, uint32_t value)
{
    if (turn->refused)
        return;
    turn->refused = chezumobari_write(CHEZUMOBARI_LENT(*turn->board), turn->task, address, value).number;
    turn->calls++;
}

/* Steps whoever has decided or is releasing to its end: the one that was met, and all that woke with it. */
static inline void chezumobari_end_others(const chezumobari_board *board, chezumobari_line *line, unsigned *calls)
{
    for (size_t other = 0; other < board->sizes.tasks; other++) {
        uint32_t number;
        if (board->places[other].phase < CHEZUMOBARI_PHASE_WRITING)
            continue;
        number = chezumobari_settle(board, other, calls);
        if (!line)
            continue;
        line->ended[other] = number;
        if (number == CHEZUMOBARI_FAILED)
            chezumobari_join_line(line, other);
        if (number == CHEZUMOBARI_COMMITTED)
            chezumobari_leave_line(line, other);
    }
}

/* One try: 20 asleep, 21 committed, 22 failed, 0 given up, or a refusal. No task is left open. */
static inline uint32_t chezumobari_try(chezumobari_turn *turn, chezumobari_body *body, void *with)
{
    const chezumobari_board *board = turn->board;
    chezumobari_end end;
    uint32_t number = chezumobari_start(CHEZUMOBARI_LENT(*board), turn->task).number;
    turn->calls++;
    turn->tries++;
    turn->refused = number;
    if (number)
        return number;
    end = body(turn, with);
    if (turn->refused == CHEZUMOBARI_OVERTAKEN)
        return CHEZUMOBARI_FAILED;
    if (!turn->refused && end == CHEZUMOBARI_THEN_COMMIT)
        turn->refused = chezumobari_commit(CHEZUMOBARI_LENT(*board), turn->task).number;
    else if (!turn->refused && end == CHEZUMOBARI_THEN_SLEEP)
        turn->refused = chezumobari_wait(CHEZUMOBARI_LENT(*board), turn->task).number;
    turn->calls++;
    if (!turn->refused && end != CHEZUMOBARI_THEN_GIVE_UP)
        return chezumobari_settle(board, turn->task, &turn->calls);
    chezumobari_abort(CHEZUMOBARI_LENT(*board), turn->task);
    return turn->refused;
}

/* One whole turn of a task. Answers 21 committed, 20 asleep, 0 given up by the body, or a refusal; then
 * `turn` has the tries and calls. There are never more tries than tasks: then 9 is answered, which no
 * board that was opened and used by calls comes to. The line may be null. */
static inline uint32_t chezumobari_whole_turn(
    const chezumobari_board *board, chezumobari_line *line, size_t task, chezumobari_body *body, void *with,
    chezumobari_turn *turn)
{
    chezumobari_turn fresh = {board, task, 0, 0, 0};
    uint32_t number;
    *turn = fresh;
    if (task < board->sizes.tasks && board->places[task].phase >= CHEZUMOBARI_PHASE_WRITING)
        chezumobari_settle(board, task, &turn->calls); /* woken, and nobody has stepped it since */
    while (turn->tries < board->sizes.tasks || turn->tries == 0) {
        number = chezumobari_try(turn, body, with);
        if (number != CHEZUMOBARI_FAILED)
            return number;
        chezumobari_end_others(board, line, &turn->calls);
    }
    return CHEZUMOBARI_OVERTAKEN;
}

/* The same where nobody keeps the line and the counts do not matter. */
static inline uint32_t chezumobari_take_turn(
    const chezumobari_board *board, size_t task, chezumobari_body *body, void *with)
{
    chezumobari_turn turn;
    return chezumobari_whole_turn(board, NULL, task, body, with, &turn);
}

/* A label: it reads, sleeps on what it read, and has something to say if that is news. Any number of labels
 * sleep on one word, and none of them wakes another. */
#ifndef CHEZUMOBARI_TEXT_SIZE
#define CHEZUMOBARI_TEXT_SIZE 160
#endif
typedef struct chezumobari_label {
    size_t task;
    /* reads by chezumobari_get and writes the text */
    void (*read)(chezumobari_turn *turn, char *text, size_t size, void *with);
    void *with;
    uint32_t number;                  /* what its last turn answered: 20, or a refusal */
    char said[CHEZUMOBARI_TEXT_SIZE]; /* what it said last */
    char text[CHEZUMOBARI_TEXT_SIZE];
} chezumobari_label;

static inline chezumobari_end chezumobari_read_label(chezumobari_turn *turn, void *with)
{
    chezumobari_label *label = (chezumobari_label *)with;
    label->read(turn, label->text, sizeof label->text, label->with);
    return CHEZUMOBARI_THEN_SLEEP;
}

/* The label's turn: the text if it is news, else null. It is the board, and stays so until the label is
 * woken. A label that sleeps has no turn. */
static inline const char *chezumobari_label_turn(const chezumobari_board *board, chezumobari_label *label)
{
    if (label->task < board->sizes.tasks && board->places[label->task].phase == CHEZUMOBARI_PHASE_ASLEEP)
        return NULL;
    label->number = chezumobari_take_turn(board, label->task, chezumobari_read_label, label);
    if (label->number != CHEZUMOBARI_ASLEEP || strcmp(label->said, label->text) == 0)
        return NULL;
    memcpy(label->said, label->text, sizeof label->said);
    return label->said;
}

/* Has every task idle or asleep: who is on its way is stepped to its end, and open transactions are given
 * up. For a saved game whose program was in the middle of something. Answers 0, or 1 for unsound tables. */
static inline uint32_t chezumobari_calm_down(const chezumobari_board *board)
{
    unsigned steps = 0;
    int calm = 0;
    while (!calm) { /* one on its way may fail or wake some before it, so this is twice at the most */
        calm = 1;
        for (size_t task = 0; task < board->sizes.tasks; task++) {
            uint32_t phase = board->places[task].phase, number = CHEZUMOBARI_DONE;
            if (phase == CHEZUMOBARI_PHASE_IDLE || phase == CHEZUMOBARI_PHASE_ASLEEP)
                continue;
            calm = 0;
            if (phase == CHEZUMOBARI_PHASE_OPEN)
                number = chezumobari_abort(CHEZUMOBARI_LENT(*board), task).number;
            else
                number = chezumobari_settle(board, task, &steps);
            if (number == CHEZUMOBARI_UNSOUND)
                return number;
        }
    }
    return CHEZUMOBARI_DONE;
}

/* How many tasks own the record of one of these addresses. Between whole turns these are the sleepers
 * in the way of a turn that uses them: it commits at try one more, or before. Those on a list own nothing
 * there, and do not count. */
static inline unsigned chezumobari_in_the_way(const chezumobari_board *board, const size_t *addresses, size_t count)
{
    unsigned owners = 0;
    for (size_t task = 0; task < board->sizes.tasks; task++)
        for (size_t i = 0; i < count; i++)
            if (board->records[addresses[i] % board->sizes.records] == CHEZUMOBARI_FIRST_OWNER + task) {
                owners++;
                break;
            }
    return owners;
}

#ifdef __cplusplus
}
#endif

#endif
