/* What a test load costs: prints its processor time as a ratio to that of the same loop in plain C, written with a choice for the object and by arithmetic
 * (plain_load.c). Usage: load_cost [ROUNDS], 15 rounds. A call makes 20,000 events or 10: it tests the whole state, which the loops do not, and that counts
 * for more the fewer the events. The loads of all have to be the same. */
#include <stdio.h>
#include <stdlib.h>
#include <string.h>

#include "plain_load.h"
#include "unlocks.h"

enum { TABLES = 2, LENGTHS = 2, LOOPS = 2, MOST_EVENTS = 20000, EVENTS = 400000 };

/* The jobs and objects of each table, and how many events a call makes. */
static const int jobs[TABLES] = {64, 8}, objects[TABLES] = {128, 16};
static const size_t lengths[LENGTHS] = {MOST_EVENTS, 10};

/* What a way to make events left: the load of its last call, the next seed, and the processor time of all calls in seconds. */
typedef struct {
    uint8_t load[3 * MOST_EVENTS];
    uint32_t seed;
    double time;
} made;

typedef uint32_t loop(uint8_t jobs, uint8_t objects, uint32_t seed, size_t count, uint8_t *buffer);

static loop *const loops[LOOPS] = {plain_make_events, plain_make_events_by_arithmetic};

static vongselik_state states[TABLES];
static double least_library[TABLES][LENGTHS], least_plain[TABLES][LENGTHS][LOOPS];

/* The fresh state of the table, on one processor: everybody reads everything. */
static void declare(vongselik_state *s, int its_jobs, int its_objects)
{
    int o;
    memset(s, 0, sizeof *s);
    s->version = 1;
    s->processors = 1;
    s->jobs = (uint8_t)its_jobs;
    s->objects = (uint8_t)its_objects;
    for (o = 0; o < its_objects; o++) s->may_read[o] = ~(uint64_t)0 >> (VONGSELIK_MOST_JOBS - its_jobs);
}

/* ---- The times */

/* The library makes all events, so many a call, each call from the seed that the one before left. A refusal leaves the seed, which check_same then sees. */
static void run_library(made *m, const vongselik_state *s, size_t length)
{
    double start = processor_time();
    size_t i;
    for (i = 0; i < EVENTS / length; i++) vongselik_make_events(s, &m->seed, length, m->load, sizeof m->load);
    m->time = processor_time() - start;
}

/* A plain loop does the same. */
static void run_plain(made *m, const vongselik_state *s, size_t length, loop *make)
{
    double start = processor_time();
    size_t i;
    for (i = 0; i < EVENTS / length; i++) m->seed = make(s->jobs, s->objects, m->seed, length, m->load);
    m->time = processor_time() - start;
}

/* Ends the program unless both left the same load and seed. */
static void check_same(const made *library, const made *plain)
{
    if (library->seed == plain->seed && !memcmp(library->load, plain->load, sizeof plain->load)) return;
    fprintf(stderr, "the library and the plain loop make different loads\n");
    exit(1);
}

/* The least of the times so far. */
static void keep_least(double *least, double time, int round)
{
    if (round == 0 || time < *least) *least = time;
}

/* Times all on each table with each length, in turns, and keeps the least. */
static void time_round(int round)
{
    static made library, plain;
    int i, k, l;
    for (i = 0; i < TABLES; i++)
        for (k = 0; k < LENGTHS; k++) {
            library.seed = (uint32_t)round;
            run_library(&library, &states[i], lengths[k]);
            keep_least(&least_library[i][k], library.time, round);
            for (l = 0; l < LOOPS; l++) {
                plain.seed = (uint32_t)round;
                run_plain(&plain, &states[i], lengths[k], loops[l]);
                check_same(&library, &plain);
                keep_least(&least_plain[i][k][l], plain.time, round);
            }
        }
}

static void print_ratios(void)
{
    int i, k;
    for (k = 0; k < LENGTHS; k++) {
        printf("%d events a call:\n", (int)lengths[k]);
        for (i = 0; i < TABLES; i++)
            printf(
                "  %2d jobs, %3d objects: %5.2f, by arithmetic %5.2f (an event: library %.2f ns, loops %.2f and %.2f ns)\n", jobs[i], objects[i],
                least_library[i][k] / least_plain[i][k][0], least_library[i][k] / least_plain[i][k][1], least_library[i][k] / EVENTS * 1e9,
                least_plain[i][k][0] / EVENTS * 1e9, least_plain[i][k][1] / EVENTS * 1e9);
    }
}

int main(int argc, char **argv)
{
    int rounds = argc > 1 ? atoi(argv[1]) : 15, round, i;
    for (i = 0; i < TABLES; i++) declare(&states[i], jobs[i], objects[i]);
    for (round = 0; round < rounds; round++) time_round(round);
    print_ratios();
    return 0;
}
