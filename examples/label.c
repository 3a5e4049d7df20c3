/* A label task that sleeps on its tile. A trade wakes it, and it speaks the new text. Both are whole turns,
 * here call by call; chezumobari_turns.h has them ready. */
#include "chezumobari.h"

#include <stdio.h>
#include <stdlib.h>
#include <string.h>

enum { OWNER, HOUSES, MORTGAGED, WORDS };
enum { LABEL, TRADE, TASKS };

static const char *const player[] = {"nobody", "Amina", "Baraka"};
static uint32_t words[WORDS], records[WORDS];
static chezumobari_place places[TASKS];
static chezumobari_entry entries[CHEZUMOBARI_ENTRY_ROWS(TASKS)];
static const chezumobari_board board = {{WORDS, WORDS, TASKS}, words, records, places, entries};

/* Looks at what a request answered. 1: done. 0: overtaken, so the transaction has ended and is begun
 * again. The other numbers would be faults of this program. */
static int done(chezumobari_answer answer)
{
    if (answer.number == CHEZUMOBARI_DONE || answer.number == CHEZUMOBARI_OVERTAKEN)
        return answer.number == CHEZUMOBARI_DONE;
    fprintf(stderr, "label: a request was answered %u\n", (unsigned)answer.number);
    exit(1);
}

static int read_word(size_t address, uint32_t *value)
{
    chezumobari_answer answer = chezumobari_read(CHEZUMOBARI_LENT(board), LABEL, address);
    *value = answer.value;
    return done(answer);
}

/* Steps a task until it sleeps or is at its end: 20 to 23. */
static uint32_t settle(size_t task)
{
    chezumobari_answer answer;
    do
        answer = chezumobari_step(CHEZUMOBARI_LENT(board), task);
    while (answer.number < CHEZUMOBARI_ASLEEP && done(answer));
    return answer.number;
}

/* One try of the label: it reads its tile and sleeps on it. 1 once it is asleep: then the text is the
 * board, and stays the board until the label is woken. */
static int sleep_on_tile(char *text, size_t size)
{
    uint32_t owner, houses, mortgaged;
    if (!(done(chezumobari_start(CHEZUMOBARI_LENT(board), LABEL)) && read_word(OWNER, &owner) &&
          read_word(HOUSES, &houses) && read_word(MORTGAGED, &mortgaged) &&
          done(chezumobari_wait(CHEZUMOBARI_LENT(board), LABEL)) && settle(LABEL) == CHEZUMOBARI_ASLEEP))
        return 0;
    snprintf(text, size, "Harbour Street. Owner: %s. Houses: %u.%s", player[owner], (unsigned)houses,
             mortgaged ? " Mortgaged." : "");
    return 1;
}

/* One try of a trade: the tile changes hands and its mortgage changes, both at once. 1 if it committed. */
static int trade(uint32_t owner, uint32_t mortgaged)
{
    return done(chezumobari_start(CHEZUMOBARI_LENT(board), TRADE)) &&
           done(chezumobari_write(CHEZUMOBARI_LENT(board), TRADE, OWNER, owner)) &&
           done(chezumobari_write(CHEZUMOBARI_LENT(board), TRADE, MORTGAGED, mortgaged)) &&
           done(chezumobari_commit(CHEZUMOBARI_LENT(board), TRADE)) && settle(TRADE) == CHEZUMOBARI_COMMITTED;
}

/* After a try that failed: whoever is writing or releasing is stepped to its end. Then it is tried again,
 * in the same turn. */
static void end_others(void)
{
    for (size_t task = 0; task < TASKS; task++)
        if (places[task].phase >= CHEZUMOBARI_PHASE_WRITING)
            settle(task);
}

int main(int count, char **words_given)
{
    char text[80], said[80] = "";

    if (count > 1 && strcmp(words_given[1], "--help") == 0) {
        puts("label: a label sleeps on its tile, a trade wakes it, and it speaks the new text. It takes no argument.");
        return 0;
    }
    if (count > 1) {
        fprintf(stderr, "label: it takes no argument, and %s was given\n", words_given[1]);
        return 2;
    }

    done(chezumobari_open(board.sizes, 1, CHEZUMOBARI_TABLES(board)));
    while (!trade(1, 1)) /* before the evening: Amina has the tile, mortgaged */
        end_others();
    for (int round = 0; round < 10; round++) { /* the scheduler: a whole turn each */
        if (round == 5)
            while (!trade(2, 0)) /* Baraka gets it and pays the mortgage off; the first try wakes the label */
                end_others();
        if (places[LABEL].phase == CHEZUMOBARI_PHASE_ASLEEP)
            continue;
        while (!sleep_on_tile(text, sizeof text))
            end_others();
        if (strcmp(text, said) != 0)
            puts(strcpy(said, text));
    }
    return 0;
}
