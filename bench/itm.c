/* The transaction of the benchmark under gcc's transactional memory (gcc -fgnu-tm, libitm): 4 reads
 * and 2 writes, committed. Prints nanoseconds for one, the fastest of several rounds. */
#include <stdint.h>
#include <stdio.h>
#include <time.h>

static uint32_t words[160];
static volatile uint32_t heard;

static double now(void)
{
    struct timespec t;
    clock_gettime(CLOCK_MONOTONIC, &t);
    return (double)t.tv_sec * 1e9 + (double)t.tv_nsec;
}

int main(void)
{
    enum { ROUNDS = 30, TIMES = 20000 };
    double fastest = 1e18;
    for (int round = 0; round < ROUNDS; round++) {
        double begin = now();
        for (uint32_t i = 0; i < TIMES; i++) {
            uint32_t sum;
            __transaction_atomic {
                sum = words[120] + words[128] + words[136] + words[144];
                words[120] = sum + i;
                words[128] = i;
            }
            heard = sum;
        }
        double each = (now() - begin) / TIMES;
        if (each < fastest)
            fastest = each;
    }
    printf("%.2f\n", fastest);
    return 0;
}
