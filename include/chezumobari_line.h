/* chezumobari_line.h: the line, for tasks whose transactions span turns, over chezumobari.h. Header only, C99.
 *
 * While chezumobari_on_its_way says so, a task calls chezumobari_line_step. Before each Start it asks
 * chezumobari_may_begin. It calls chezumobari_leave_line when it calls wait or gives up, and
 * chezumobari_join_line when a Read or Write answers 9. All tasks of a board keep the line: one that
 * takes whole turns asks chezumobari_may_begin too, and hands the line to chezumobari_whole_turn.
 */
#ifndef CHEZUMOBARI_LINE_H
#define CHEZUMOBARI_LINE_H

#include "chezumobari.h"

#ifdef __cplusplus
extern "C" {
#endif

/* Who has failed, the first one first, and who waits for them. All zeros is an empty line. */
typedef struct chezumobari_line {
    unsigned count;
    unsigned char tasks[CHEZUMOBARI_MOST_TASKS];
    uint32_t waiting;                       /* tasks as bits: who wants to begin */
    uint32_t called;                        /* who waited when the line emptied: it begins next */
    uint32_t ended[CHEZUMOBARI_MOST_TASKS]; /* the number of one that another's turn stepped to its end */
} chezumobari_line;

/* For a task that has failed. */
static inline void chezumobari_join_line(chezumobari_line *line, size_t task)
{
    for (unsigned i = 0; i < line->count; i++)
        if (line->tasks[i] == task)
            return;
    line->tasks[line->count++] = (unsigned char)task;
}

/* For a task that commits, calls wait or gives up. When the line empties, all who wait begin next. */
static inline void chezumobari_leave_line(chezumobari_line *line, size_t task)
{
    unsigned left = 0;
    for (unsigned i = 0; i < line->count; i++)
        if (line->tasks[i] != task)
            line->tasks[left++] = line->tasks[i];
    line->count = left;
    if (left == 0) {
        line->called |= line->waiting;
        line->waiting = 0;
    }
}

/* Steps a task until it sleeps or is at its end: 20 to 23, or a refusal. */
static inline uint32_t chezumobari_settle(const chezumobari_board *board, size_t task, unsigned *calls)
{
    uint32_t number;
    do {
        number = chezumobari_step(CHEZUMOBARI_LENT(*board), task).number;
        ++*calls;
    } while (number == CHEZUMOBARI_DONE);
    return number;
}

/* 1 if a task has steps to make, or if another's whole turn has made them and it has not heard of it. */
static inline int chezumobari_on_its_way(const chezumobari_line *line, const chezumobari_board *board, size_t task)
{
    uint32_t phase = board->places[task].phase;
    return line->ended[task] != 0 || (phase > CHEZUMOBARI_PHASE_OPEN && phase != CHEZUMOBARI_PHASE_ASLEEP);
}

/* 1 if a task may begin now; 0 if it should ask again in its next turn. One that was woken is stepped to
 * its end here, so that it stands in nobody's way. */
static inline int chezumobari_may_begin(chezumobari_line *line, const chezumobari_board *board, size_t task)
{
    uint32_t bit = (uint32_t)1 << task;
    int may = line->count == 0 || (line->called & bit) != 0;
    unsigned steps = 0;
    if (board->places[task].phase == CHEZUMOBARI_PHASE_RELEASING_WOKEN)
        chezumobari_settle(board, task, &steps);
    if (!may && line->tasks[0] == task && line->called == 0) {
        may = 1;
        for (size_t other = 0; other < board->sizes.tasks; other++) {
            uint32_t phase = board->places[other].phase;
            if (other != task && phase > CHEZUMOBARI_PHASE_OPEN && phase != CHEZUMOBARI_PHASE_ASLEEP)
                may = 0;
        }
    }
    line->waiting = may ? line->waiting & ~bit : line->waiting | bit;
    line->called &= ~bit;
    line->ended[task] = 0;
    return may;
}

/* One step. Whoever turns from a commit to failing joins the line, the one that came before the one that it
 * met. One that would sleep stands in no line, also if it fails with a sleeper that it joined. */
static inline uint32_t chezumobari_line_step(chezumobari_line *line, const chezumobari_board *board, size_t task)
{
    uint32_t before[CHEZUMOBARI_MOST_TASKS], number = line->ended[task];
    if (number) { /* another's whole turn has made the steps already */
        line->ended[task] = 0;
        return number;
    }
    for (size_t other = 0; other < board->sizes.tasks; other++)
        before[other] = board->places[other].phase;
    number = chezumobari_step(CHEZUMOBARI_LENT(*board), task).number;
    for (size_t i = 0; i < board->sizes.tasks; i++) {
        size_t other = (task + i) % board->sizes.tasks;
        if (before[other] == CHEZUMOBARI_PHASE_TAKING_TO_COMMIT &&
            board->places[other].phase == CHEZUMOBARI_PHASE_RELEASING_FAILED)
            chezumobari_join_line(line, other);
    }
    if (number == CHEZUMOBARI_COMMITTED)
        chezumobari_leave_line(line, task);
    return number;
}

#ifdef __cplusplus
}
#endif

#endif
