/* The processor time of the library beside that of the plain C peer (speed_peer.c), run in turn: prints ratios, of all rounds' the middle one.
 * Usage: speed ROUNDS < LOAD, where LOAD is a table and then events of three bytes. Prints three ratios to the peer: the library's event, all the events
 *        in one list, `event` by value. The answers of all have to be the same.
 *        speed ROUNDS list < LOAD. Prints one ratio to the peer: all the events in one list.
 *        speed ROUNDS versions LOAD LOAD_2, two such files, of a table of version 1 and of one of version 2. Prints the library's time for an event of the
 *        second as a ratio to its own for one of the first, twice: for single events and for all in one list.
 *        speed ROUNDS holders MANY FEW, the two loads of tools/many_locks. Prints the library's time for a list of all their events behind the opening, with
 *        many locks of others, as a ratio to its own for the same events with few.
 *        speed ROUNDS waiting. Prints how the time of an unlock that wakes nobody grows with the number of waiting jobs: the library's and the peer's,
 *        each as a ratio to its own with none waiting, and the library's as a ratio to the peer's.
 * Built by tools/speed, with tests/c on the include path. */
#include <stdio.h>
#include <stdlib.h>
#include <string.h>

#include "speed_peer.h"
#include "unlocks.h"

enum { PEER, LIBRARY, LIST, BY_VALUE, MANAGERS, MOST_ROUNDS = 100, COUNTS = 4, CALLS = 2000 };

/* The exclusive or of the packed answers to the events, from the state of the table. Proved (crates/by_value). */
uint32_t by_value_answers(const uint8_t *table, size_t table_size, const uint8_t *events, size_t events_size);

static int in_order(const void *a, const void *b)
{
    double x = *(const double *)a, y = *(const double *)b;
    return (x > y) - (x < y);
}

/* The ratio of two times of the same round: the middle one of all rounds. */
static double middle_ratio(const double *ours, const double *theirs, int rounds)
{
    double ratios[MOST_ROUNDS];
    int k;
    for (k = 0; k < rounds; k++) ratios[k] = ours[k] / theirs[k];
    qsort(ratios, (size_t)rounds, sizeof ratios[0], in_order);
    return ratios[rounds / 2];
}

/* ---- A load */

/* A table and then events: the bytes, how many they are, and how many of them are the table. */
typedef struct {
    uint8_t bytes[1 << 22];
    size_t size, used;
} load;

static double times[MANAGERS][MOST_ROUNDS];

static uint32_t play_library(load *l)
{
    static vongselik_state s;
    uint32_t answers = 0;
    size_t i;
    vongselik_read_table(&s, l->bytes, l->size, &l->used);
    for (i = l->used; i + 3 <= l->size; i += 3) {
        vongselik_answer a = vongselik_event(&s, l->bytes[i], l->bytes[i + 1], l->bytes[i + 2]);
        answers ^= (uint32_t)a.answer << 24 | (uint32_t)(a.holder | a.woken | a.refusal) << 16 | (uint32_t)a.object << 8 | (uint32_t)a.reason;
    }
    return answers;
}

static uint32_t play_list(load *l)
{
    static vongselik_state s;
    static uint32_t listed[sizeof l->bytes / 3];
    uint32_t answers = 0;
    size_t count, i;
    vongselik_read_table(&s, l->bytes, l->size, &l->used);
    count = vongselik_events(&s, l->bytes + l->used, listed, (l->size - l->used) / 3);
    for (i = 0; i < count; i++) answers ^= listed[i];
    return answers;
}

/* The exclusive or of the manager's packed answers to the load. */
static uint32_t play(int manager, load *l)
{
    switch (manager) {
    case PEER: return peer_answers(l->bytes, l->size, &l->used);
    case LIBRARY: return play_library(l);
    case LIST: return play_list(l);
    default: return by_value_answers(l->bytes, l->used, l->bytes + l->used, l->size - l->used);
    }
}

/* The processor time of the manager on the load in seconds. Ends the program unless the answers are those expected. */
static double time_manager(int manager, load *l, uint32_t expected)
{
    double start = processor_time();
    if (play(manager, l) != expected) {
        fprintf(stderr, "the answers differ\n");
        exit(1);
    }
    return processor_time() - start;
}

/* Times these managers on the load on standard input, in turn. */
static void time_managers(int rounds, const int *managers, int count)
{
    static load given;
    int k, i;
    uint32_t expected;
    given.size = fread(given.bytes, 1, sizeof given.bytes, stdin);
    expected = play(PEER, &given);
    for (k = 0; k < rounds; k++)
        for (i = 0; i < count; i++) {
            int manager = managers[(k + i) % count];
            times[manager][k] = time_manager(manager, &given, expected);
        }
}

static void time_load(int rounds)
{
    static const int all[] = {PEER, LIBRARY, LIST, BY_VALUE};
    time_managers(rounds, all, MANAGERS);
    printf("library %.2f, ", middle_ratio(times[LIBRARY], times[PEER], rounds));
    printf("list %.2f, ", middle_ratio(times[LIST], times[PEER], rounds));
    printf("event by value %.2f", middle_ratio(times[BY_VALUE], times[PEER], rounds));
}

static void time_list(int rounds)
{
    static const int both[] = {PEER, LIST};
    time_managers(rounds, both, 2);
    printf("list %.2f\n", middle_ratio(times[LIST], times[PEER], rounds));
}

/* ---- The two versions */

/* Reads the load from the file. Ends the program unless its table is one of the version. */
static void read_load(load *l, const char *name, int version)
{
    static vongselik_state s;
    FILE *file = fopen(name, "rb");
    l->size = file ? fread(l->bytes, 1, sizeof l->bytes, file) : 0;
    if (file) fclose(file);
    if (!vongselik_read_table(&s, l->bytes, l->size, &l->used) && s.version == version) return;
    fprintf(stderr, "%s: no load of version %d\n", name, version);
    exit(1);
}

/* Times single events (0) and the list of all (1) on the load of each version, in turn; of an event. */
static void time_versions(int rounds, const char *first, const char *second)
{
    static load loads[2];
    static double event_times[2][2][MOST_ROUNDS];
    uint32_t expected[2];
    int k, i;
    for (i = 0; i < 2; i++) {
        read_load(&loads[i], i ? second : first, i + 1);
        expected[i] = play_library(&loads[i]);
    }
    for (k = 0; k < rounds; k++)
        for (i = 0; i < 4; i++) {
            int list = (k + i) % 4 / 2, version = (k + i) % 2;
            load *l = &loads[version];
            event_times[list][version][k] = time_manager(list ? LIST : LIBRARY, l, expected[version]) / (double)((l->size - l->used) / 3);
        }
    printf("library %.2f, ", middle_ratio(event_times[0][1], event_times[0][0], rounds));
    printf("list %.2f of version 1, by event\n", middle_ratio(event_times[1][1], event_times[1][0], rounds));
}

/* ---- Many locks */

/* The events behind the opening of the two loads, and the most urgent of the jobs that hold locks from the opening on. */
enum { BUSY = 200000, FIRST_HOLDER = 40 };

/* How many jobs from FIRST_HOLDER on hold locks, and on how many objects. */
typedef struct {
    int holders, objects;
} held;

static held held_in(const vongselik_state *s)
{
    const uint64_t others = ((uint64_t)1 << (FIRST_HOLDER - 1)) - 1;
    uint64_t ranks = 0;
    held h = {0, 0};
    int o;
    for (o = 0; o < VONGSELIK_MOST_OBJECTS; o++) {
        uint64_t on_object = (s->readers[o] | s->writers[o]) & ~others;
        ranks |= on_object;
        h.objects += on_object != 0;
    }
    for (; ranks; ranks &= ranks - 1) h.holders++;
    return h;
}

/* Ends the program unless so many jobs hold locks on so many objects. */
static void need_held(const vongselik_state *s, held h)
{
    held found = held_in(s);
    if (found.holders == h.holders && found.objects == h.objects) return;
    fprintf(stderr, "%d jobs hold locks on %d objects, not %d on %d\n", found.holders, found.objects, h.holders, h.objects);
    exit(1);
}

/* The load's events behind its opening. */
static const uint8_t *busy_events(const load *l)
{
    return l->bytes + l->size - 3 * BUSY;
}

/* Plays the opening, and then each event by itself: so many jobs hold locks on so many objects after the opening and after each of them. Gives the state
 * after the opening. */
static vongselik_state play_opening(load *l, const char *name, held h)
{
    static uint32_t answers[1000];
    vongselik_state opened, s;
    const uint8_t *e;
    size_t count;
    read_load(l, name, 1);
    vongselik_read_table(&opened, l->bytes, l->size, &l->used);
    count = (l->size - l->used) / 3 - BUSY;
    if (count > sizeof answers / sizeof answers[0]) exit(1);
    vongselik_events(&opened, l->bytes + l->used, answers, count);
    need_held(&opened, h);
    s = opened;
    for (e = busy_events(l); e < l->bytes + l->size; e += 3) {
        vongselik_event(&s, e[0], e[1], e[2]);
        need_held(&s, h);
    }
    return opened;
}

/* The processor time of the list behind the opening in seconds; its answers are laid down. */
static double time_busy(const load *l, const vongselik_state *opened, uint32_t *answers)
{
    static vongselik_state s;
    double start;
    s = *opened;
    start = processor_time();
    if (vongselik_events(&s, busy_events(l), answers, BUSY) != BUSY) exit(1);
    return processor_time() - start;
}

/* Times the list with many locks of others (0) and with few (1), in turn. Both have to answer the same. */
static void time_holders(int rounds, const char *many, const char *few)
{
    static const held expected[2] = {{25, 60}, {2, 2}};
    static load loads[2];
    static vongselik_state opened[2];
    static uint32_t answers[2][BUSY];
    static double busy_times[2][MOST_ROUNDS];
    int k, i;
    for (i = 0; i < 2; i++) opened[i] = play_opening(&loads[i], i ? few : many, expected[i]);
    for (k = 0; k < rounds; k++) {
        for (i = 0; i < 2; i++) {
            int which = (k + i) % 2;
            busy_times[which][k] = time_busy(&loads[which], &opened[which], answers[which]);
        }
        if (!memcmp(answers[0], answers[1], sizeof answers[0])) continue;
        fprintf(stderr, "the answers differ\n");
        exit(1);
    }
    printf("list %.2f\n", middle_ratio(busy_times[0], busy_times[1], rounds));
}

/* ---- Waiting jobs */

/* The layout in which the library looks at most: it weighs the most urgent waiting job against the locks of the holder, which has all objects, up to the first
 * that stops it, here the last. The peer looks at every object for each waiting job, in any layout. */
static const layout hardest = {"the last of 128, all held", 128, 128, 1, 1};

static const int counts[COUNTS] = {0, 8, 32, 63};

static vongselik_state states[COUNTS];
static double library[COUNTS][MOST_ROUNDS], peer[COUNTS][MOST_ROUNDS];

static void time_waiting(int rounds)
{
    int k, i;
    double start;
    for (i = 0; i < COUNTS; i++) prepare(&states[i], hardest, counts[i]);
    for (k = 0; k < rounds; k++)
        for (i = 0; i < COUNTS; i++) {
            peer_take(&states[i]);
            start = processor_time();
            peer_unlock_often(HOLDER, hardest.given_up, CALLS);
            peer[i][k] = processor_time() - start;
            start = processor_time();
            unlock_often(&states[i], hardest, CALLS);
            library[i][k] = processor_time() - start;
        }
    printf("an unlock that wakes nobody, each to its own with none waiting; the lock that stops the waiting jobs is on %s:\n", hardest.name);
    printf("waiting  library     peer  library to peer\n");
    for (i = 0; i < COUNTS; i++) {
        printf("%7d  %7.2f  ", counts[i], middle_ratio(library[i], library[0], rounds));
        printf("%7.2f  %15.2f\n", middle_ratio(peer[i], peer[0], rounds), middle_ratio(library[i], peer[i], rounds));
    }
}

int main(int argc, char **argv)
{
    int rounds = argc > 1 ? atoi(argv[1]) : 11;
    const char *what = argc > 2 ? argv[2] : "load";
    if (rounds < 1 || rounds > MOST_ROUNDS) return 2;
    if (!strcmp(what, "load"))
        time_load(rounds);
    else if (!strcmp(what, "list"))
        time_list(rounds);
    else if (!strcmp(what, "versions") && argc > 4)
        time_versions(rounds, argv[3], argv[4]);
    else if (!strcmp(what, "holders") && argc > 4)
        time_holders(rounds, argv[3], argv[4]);
    else if (!strcmp(what, "waiting"))
        time_waiting(rounds);
    else
        return 2;
    return 0;
}
