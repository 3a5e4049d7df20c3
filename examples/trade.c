/* Two labels and a trade among three. The trade meets both labels, comes through in one turn, and the
 * labels speak in the same round. */
#include "chezumobari_turns.h"

#include <stdio.h>
#include <string.h>

enum { HARBOUR, MILL, CASTLE, TILES };
enum { RULES, HARBOUR_LABEL, MILL_LABEL, TASKS };
enum { OWNER, HOUSES, TILE_WORDS, WORDS = TILES * TILE_WORDS };

static const char *const player[] = {"nobody", "Amina", "Baraka", "Chausiku"};
static const char *const tile_name[] = {"Harbour Street", "Mill Lane", "Castle Square"};

static uint32_t words[WORDS], records[WORDS];
static chezumobari_place places[TASKS];
static chezumobari_entry entries[CHEZUMOBARI_ENTRY_ROWS(TASKS)];
static const chezumobari_board board = {{WORDS, WORDS, TASKS}, words, records, places, entries};

/* What a label reads, and its text. */
static void read_tile(chezumobari_turn *turn, char *text, size_t size, void *with)
{
    int tile = *(const int *)with;
    uint32_t owner = chezumobari_get(turn, tile * TILE_WORDS + OWNER);
    uint32_t houses = chezumobari_get(turn, tile * TILE_WORDS + HOUSES);
    snprintf(text, size, "%s belongs to %s. Houses: %u.", tile_name[tile], player[owner], (unsigned)houses);
}

/* Before the evening: each player has a tile. */
static chezumobari_end deal(chezumobari_turn *turn, void *with)
{
    (void)with;
    for (uint32_t tile = 0; tile < TILES; tile++)
        chezumobari_put(turn, tile * TILE_WORDS + OWNER, tile + 1);
    return CHEZUMOBARI_THEN_COMMIT;
}

/* A house is built where the owner is the one who pays. Otherwise nothing happens. */
static chezumobari_end build(chezumobari_turn *turn, void *with)
{
    uint32_t payer = *(const uint32_t *)with;
    if (chezumobari_get(turn, MILL * TILE_WORDS + OWNER) != payer)
        return CHEZUMOBARI_THEN_GIVE_UP;
    chezumobari_put(turn, MILL * TILE_WORDS + HOUSES, chezumobari_get(turn, MILL * TILE_WORDS + HOUSES) + 1);
    return CHEZUMOBARI_THEN_COMMIT;
}

/* Each gives a tile to the next one, all at once. */
static chezumobari_end trade(chezumobari_turn *turn, void *with)
{
    uint32_t owner[TILES];
    (void)with;
    for (size_t tile = 0; tile < TILES; tile++)
        owner[tile] = chezumobari_get(turn, tile * TILE_WORDS + OWNER);
    for (size_t tile = 0; tile < TILES; tile++)
        chezumobari_put(turn, tile * TILE_WORDS + OWNER, owner[(tile + 1) % TILES]);
    return CHEZUMOBARI_THEN_COMMIT;
}

/* A turn of the rules. Answers its number, and says it if it is neither committed nor given up. */
static uint32_t rules(chezumobari_body *body, void *with, chezumobari_turn *turn)
{
    uint32_t number = chezumobari_whole_turn(&board, NULL, RULES, body, with, turn);
    if (number != CHEZUMOBARI_COMMITTED && number != CHEZUMOBARI_DONE)
        printf("The rules were answered %u.\n", (unsigned)number);
    return number;
}

int main(int count, char **given)
{
    static int harbour = HARBOUR, mill = MILL;
    static chezumobari_label labels[] = {
        {HARBOUR_LABEL, read_tile, &harbour, 0, "", ""}, {MILL_LABEL, read_tile, &mill, 0, "", ""}};
    chezumobari_turn turn;
    uint32_t amina = 1, baraka = 2;

    if (count > 1 && strcmp(given[1], "--help") == 0) {
        puts("trade: two labels and a trade among three, in whole turns. It takes no argument.");
        return 0;
    }
    if (count > 1) {
        fprintf(stderr, "trade: it takes no argument, and %s was given\n", given[1]);
        return 2;
    }
    if (chezumobari_open(board.sizes, 1, CHEZUMOBARI_TABLES(board)).number != CHEZUMOBARI_DONE ||
        rules(deal, NULL, &turn) != CHEZUMOBARI_COMMITTED)
        return 1;
    for (int round = 1; round <= 9; round++) {
        if (round % 3 == 0) {
            if (rules(trade, NULL, &turn) != CHEZUMOBARI_COMMITTED)
                return 1;
            printf("Round %d. A trade among three, through at try %u.\n", round, turn.tries);
        }
        if (round == 2 && rules(build, &baraka, &turn) == CHEZUMOBARI_COMMITTED)
            printf("Round %d. Baraka builds, through at try %u.\n", round, turn.tries);
        if (round == 4 && rules(build, &amina, &turn) == CHEZUMOBARI_DONE)
            printf("Round %d. Amina may not build.\n", round);
        for (size_t i = 0; i < sizeof labels / sizeof *labels; i++) {
            const char *text = chezumobari_label_turn(&board, &labels[i]);
            if (text)
                printf("Round %d. %s\n", round, text);
        }
    }
    return 0;
}
