/* What the state page costs: prints its processor time as a ratio to that of the question for the running job. Usage: page_cost [ROUNDS], 15 rounds.
 * 64 jobs on 4 processors are all active, one or all of them hold read locks, and none, half or all but one of them wait. Events lead to these states. */
#include <stdio.h>
#include <stdlib.h>
#include <string.h>

#include "unlocks.h"

enum { JOBS = VONGSELIK_MOST_JOBS, OBJECTS = VONGSELIK_MOST_OBJECTS, PROCESSORS = 4, COUNTS = 3, HALF = 1, LAYOUTS = 4, CALLS = 500 };

/* So many of the least urgent jobs hold so many locks each; they lock one after the other, on objects in rising or falling order. The last lock, on an
 * object that the most urgent job writes, stops all waiting jobs. */
typedef struct {
    const char *name;
    int holders, locks_each, rising;
} holding;

static const holding layouts[LAYOUTS] = {
    {"1 object, held by one job", 1, 1, 1},
    {"the last of 128, all held by one job", 1, 128, 1},
    {"the first of 128, two held by each job", 64, 2, 0},
    {"the last but one of 128, two held by each job", 64, 2, 1}};

static const int counts[COUNTS] = {0, 32, 63};

static vongselik_state states[LAYOUTS][COUNTS];
static double least_page[LAYOUTS][COUNTS], least_running[LAYOUTS][COUNTS];

/* ---- The states */

/* The fresh state of the table: everybody reads everything, and the most urgent job writes the stopping object. */
static void declare(vongselik_state *s, int stopping)
{
    int r, o;
    memset(s, 0, sizeof *s);
    s->version = 1;
    s->processors = PROCESSORS;
    s->jobs = JOBS;
    s->objects = OBJECTS;
    for (r = 0; r < JOBS; r++) s->processor_of[r] = (uint8_t)(r % PROCESSORS);
    for (o = 0; o < OBJECTS; o++) s->may_read[o] = ~(uint64_t)0;
    s->may_write[stopping - 1] = 1;
}

/* Every job is started, the holders have their locks, and so many jobs wait: the most urgent ones, without the one that stops them. */
static void prepare_page(vongselik_state *s, holding h, int waiting)
{
    int all = h.holders * h.locks_each, stopping = h.rising ? all : 1, stopper = JOBS + 1 - h.holders, r, i;
    declare(s, stopping);
    for (r = 1; r <= JOBS; r++) send_answered(s, VONGSELIK_START, r, 0, VONGSELIK_DONE);
    for (i = 0; i < all; i++) send_answered(s, VONGSELIK_READ_LOCK, JOBS - i / h.locks_each, h.rising ? i + 1 : all - i, VONGSELIK_GRANTED);
    for (r = 1; waiting > 0; r++) {
        if (r == stopper) continue;
        send_answered(s, VONGSELIK_READ_LOCK, r, stopping, VONGSELIK_WAITS);
        waiting--;
    }
}

/* Ends the program unless the state is well formed, every job has its line, and so many of them wait. */
static void check_state(const vongselik_state *s, int waiting)
{
    uint8_t page[VONGSELIK_LONGEST_PAGE];
    size_t length = 0, letter;
    int found = 0;
    if (vongselik_page(s, page, sizeof page, &length)) length = 0;
    for (letter = 7; letter < length; letter += 21) found += page[letter] == 'W';
    if (length == sizeof page && found == waiting) return;
    fprintf(stderr, "not the page of a state with %d waiting jobs\n", waiting);
    exit(1);
}

/* ---- The times */

/* The processor time of the pages in seconds. */
static double time_page(const vongselik_state *s)
{
    uint8_t page[VONGSELIK_LONGEST_PAGE];
    size_t length;
    double start = processor_time();
    int i;
    for (i = 0; i < CALLS; i++)
        if (vongselik_page(s, page, sizeof page, &length)) exit(1);
    return processor_time() - start;
}

/* The processor time of as many questions in seconds, each processor's in turn. */
static double time_running(const vongselik_state *s)
{
    uint8_t rank;
    double start = processor_time();
    int i;
    for (i = 0; i < CALLS; i++)
        if (vongselik_running(s, (uint8_t)(i % PROCESSORS), &rank)) exit(1);
    return processor_time() - start;
}

/* Times both on each state, in turns, and keeps the least. */
static void time_round(int round)
{
    int i, k;
    for (i = 0; i < LAYOUTS; i++)
        for (k = 0; k < COUNTS; k++) {
            double page = time_page(&states[i][k]), running = time_running(&states[i][k]);
            if (round == 0 || page < least_page[i][k]) least_page[i][k] = page;
            if (round == 0 || running < least_running[i][k]) least_running[i][k] = running;
        }
}

static void print_ratios(void)
{
    int i, k;
    printf("the lock that the waiting jobs name is on:\n");
    for (i = 0; i < LAYOUTS; i++)
        printf(
            "  %c: %s (%d waiting: question %.0f ns, page %.0f ns)\n", 'a' + i, layouts[i].name, counts[HALF], least_running[i][HALF] / CALLS * 1e9,
            least_page[i][HALF] / CALLS * 1e9);
    printf("waiting      a      b      c      d\n");
    for (k = 0; k < COUNTS; k++) {
        printf("%7d", counts[k]);
        for (i = 0; i < LAYOUTS; i++) printf(" %6.2f", least_page[i][k] / least_running[i][k]);
        printf("%s\n", k == HALF ? "  (the limit is 4)" : "");
    }
}

int main(int argc, char **argv)
{
    int rounds = argc > 1 ? atoi(argv[1]) : 15, round, i, k;
    for (i = 0; i < LAYOUTS; i++)
        for (k = 0; k < COUNTS; k++) {
            prepare_page(&states[i][k], layouts[i], counts[k]);
            check_state(&states[i][k], counts[k]);
        }
    for (round = 0; round < rounds; round++) time_round(round);
    print_ratios();
    return 0;
}
