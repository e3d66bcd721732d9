/* What an unlock costs by the number of waiting jobs: prints its processor time as a ratio to that with none waiting. Usage: waiting [ROUNDS], 15 rounds.
 * Of 64 jobs, job 64 holds the lock that stops all waiting jobs, and gives up another one: the search wakes none of them (unlocks.c). */
#include <stdio.h>
#include <stdlib.h>

#include "unlocks.h"

enum { COUNTS = 7, LAYOUTS = 4, CALLS = 2000 };

static const layout layouts[LAYOUTS] = {
    {"the first of 128 objects", 128, 1, 2, 0},
    {"the last of 128", 128, 128, 1, 0},
    {"the last of 128, all held", 128, 128, 1, 1},
    {"the last of 16, all held", 16, 16, 1, 1}};

static const int counts[COUNTS] = {0, 1, 3, 7, 15, 31, 63};

static vongselik_state states[LAYOUTS][COUNTS];
static double least[LAYOUTS][COUNTS];

/* The processor time of the unlocks in seconds. */
static double time_unlocks(vongselik_state *s, layout l)
{
    double start = processor_time();
    unlock_often(s, l, CALLS);
    return processor_time() - start;
}

static void print_ratios(void)
{
    int i, k;
    printf("the lock that stops the waiting jobs is on:\n");
    for (i = 0; i < LAYOUTS; i++) printf("  %c: %s (none waiting: %.0f ns)\n", 'a' + i, layouts[i].name, least[i][0] / CALLS * 1e9);
    printf("waiting      a      b      c      d\n");
    for (k = 0; k < COUNTS; k++) {
        printf("%7d", counts[k]);
        for (i = 0; i < LAYOUTS; i++) printf(" %6.2f", least[i][k] / least[i][0]);
        printf("\n");
    }
}

int main(int argc, char **argv)
{
    int rounds = argc > 1 ? atoi(argv[1]) : 15, round, i, k;
    for (i = 0; i < LAYOUTS; i++)
        for (k = 0; k < COUNTS; k++) prepare(&states[i][k], layouts[i], counts[k]);
    for (round = 0; round < rounds; round++)
        for (i = 0; i < LAYOUTS; i++)
            for (k = 0; k < COUNTS; k++) {
                double t = time_unlocks(&states[i][k], layouts[i]);
                if (round == 0 || t < least[i][k]) least[i][k] = t;
            }
    print_ratios();
    return 0;
}
