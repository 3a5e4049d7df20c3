/* One long random schedule from C. Prints how often each number was answered and a checksum over
 * every answer and every table after each call. Each build of the library prints the same. */
#include "chezumobari.h"

#include <inttypes.h>
#include <stdio.h>

enum { MOST = 32, BOARDS = 600, CALLS = 300 };

static uint32_t words[MOST], records[MOST];
static chezumobari_place places[4];
static chezumobari_entry entries[CHEZUMOBARI_ENTRY_ROWS(4)];
static uint64_t sum = 14695981039346656037u, state = 2003;
static unsigned answered[24];

static size_t below(size_t n) /* a random number below n (xorshift) */
{
    state ^= state << 13;
    state ^= state >> 7;
    state ^= state << 17;
    return (size_t)((state >> 32) % n);
}

static void add(const void *bytes, size_t count) /* FNV-1a over 32-bit numbers */
{
    const uint32_t *number = bytes;
    for (size_t i = 0; i < count / sizeof *number; i++)
        sum = (sum ^ number[i]) * 1099511628211u;
}

static chezumobari_answer call(chezumobari_board b)
{
    size_t task = below(b.sizes.tasks + (below(50) == 0)), address = below(b.sizes.words + (below(50) == 0));
    if (task < b.sizes.tasks && places[task].phase == CHEZUMOBARI_PHASE_ASLEEP && below(8))
        task = below(b.sizes.tasks); /* sleepers are stepped less often */
    uint32_t phase = task < b.sizes.tasks ? places[task].phase : 0;
    size_t choice = below(24);
    if (choice == 0)
        return chezumobari_abort(CHEZUMOBARI_LENT(b), task);
    if (phase == CHEZUMOBARI_PHASE_IDLE || choice == 1)
        return chezumobari_start(CHEZUMOBARI_LENT(b), task);
    if (phase != CHEZUMOBARI_PHASE_OPEN || choice == 2)
        return chezumobari_step(CHEZUMOBARI_LENT(b), task);
    if (choice < 6)
        return chezumobari_commit(CHEZUMOBARI_LENT(b), task);
    if (choice < 8 && (task != 0 || below(8) == 0)) /* task 0 seldom sleeps, so that it can wake the others */
        return chezumobari_wait(CHEZUMOBARI_LENT(b), task);
    if (choice < 16)
        return chezumobari_write(CHEZUMOBARI_LENT(b), task, address, (uint32_t)below(9));
    return chezumobari_read(CHEZUMOBARI_LENT(b), task, address);
}

int main(void)
{
    for (int i = 0; i < BOARDS; i++) {
        chezumobari_sizes sizes = {1 + below(MOST), 1 + below(MOST), 1 + below(4)};
        chezumobari_board board = {sizes, words, records, places, entries};
        uint32_t first = i % 10 == 9 ? CHEZUMOBARI_TOP_VERSION - 3 : 1;
        chezumobari_open(sizes, first, CHEZUMOBARI_TABLES(board));
        for (int k = 0; k < CALLS; k++) {
            chezumobari_answer answer = call(board);
            chezumobari_looked looked = chezumobari_look(CHEZUMOBARI_LENT(board), below(sizes.words));
            answered[answer.number]++;
            add(&answer, sizeof answer);
            add(&looked, sizeof looked);
            add(words, sizes.words * sizeof *words);
            add(records, sizes.records * sizeof *records);
            add(places, sizes.tasks * sizeof *places);
            add(entries, CHEZUMOBARI_ENTRY_ROWS(sizes.tasks) * sizeof *entries);
        }
    }
    for (unsigned number = 0; number < 24; number++)
        if (answered[number])
            printf("number %u: %u times\n", number, answered[number]);
    printf("checksum %016" PRIx64 "\n", sum);
    return 0;
}
