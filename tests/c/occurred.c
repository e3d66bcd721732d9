/* Counts which answers the compared events got, and what was met: see occurred.h. */
#include "occurred.h"

#include <stdio.h>

#include "checks.h"

enum { READ = 1, WRITE = 2, CERTIFY = 3, ENOUGH_EVENTS = 100000, ENOUGH_STATES = 1000 };

/* How many events there were, and how many states were handed in, all and the well-formed ones, by their version; those of neither version are at 0. */
static unsigned long events[3], handed_in[3], well_formed_in[3];

/* How often a request was granted, and how often a waiting job was woken, by version and mode; how often one had to wait, by version, mode and reason. */
static unsigned long granted[3][4], woken[3][4], waited[3][4][4];

/* How often an event was refused, by version, kind and number; a kind that is not 1 to 9 is at 0. */
static unsigned long refused[3][10][28];

/* Of version 2: how often a request named a lock on its own object, by its mode and that of the lock. */
static unsigned long met[4][4];

/* Of version 2: where two refusals are near. 14 for a finish that 25 would refuse too; 24 for a job that reads the object, and for an object that another
 * job has certified; 17 of kinds 2 and 3, and 21, for an object that the job has certified. And ends of runs: with a certify lock, by a finish and by an
 * abandonment, and of a job that waits to certify. */
enum { BY_14_AND_25, BY_24_READER, BY_24_OTHERS, BY_17_CERTIFIED, BY_21_CERTIFIED, FINISHED, ABANDONED, DROPPED, SPECIAL };

static const char *const special_name[SPECIAL] = {
    "14 before 25:", "24 for a reader:", "24 where another has certified:", "17 where the job has certified:", "21 where the job has certified:",
    "finish with a certify lock:", "abandonment with one:", "abandonment of a job that waits to certify:"};

static unsigned long special[SPECIAL];

/* Of sleepers: events 8 and 9 answered done; 12 for a sleeper, 27 for a waiting job; requests of others that name a sleeper's lock, and that are granted
 * while a sleeper holds one; the abandonment of a sleeper, and one that wakes a waiting job. Of questions: a processor that passes over a sleeper to another
 * job, and to none. Of states handed in: a well-formed one in which a sleeper holds a lock; one that is not well formed for nothing but the mark of an idle
 * job, of a waiting one, and of a rank above the job count. */
enum {
    SLEPT, WOKE, BY_12_ASLEEP, BY_27_WAITING, SLEEPER_NAMED, SLEEPER_BESIDE, SLEEPER_ABANDONED, SLEEPER_WAITED_FOR, SLEEPER_EVENTS,
    RUNS_ANOTHER = SLEEPER_EVENTS, RUNS_NONE, SLEEPER_QUESTIONS,
    SLEEPER_HOLDS = SLEEPER_QUESTIONS, IDLE_MARK, WAITING_MARK, MARK_ABOVE, SLEEPERS
};

static const char *const sleeper_name[SLEEPERS] = {
    "sleep done:", "wake done:", "12 for a sleeper:", "27 for a waiting job:",
    "waits for a sleeper's lock:", "granted beside one:", "abandonment of a sleeper:", "one that wakes a waiting job:",
    "a processor passes over a sleeper to another job:", "to none:",
    "handed in with a sleeper that holds a lock:", "refused for the mark of an idle job:", "of a waiting one:", "of a rank above the job count:"};

/* The same by version; and how often 26 came in the place of another refusal, by version and its number, 0 for none. */
static unsigned long sleepers[3][SLEEPERS], in_place_of[3][28];

/* ---- Counting */

static int version_of(const vongselik_state *s)
{
    return s->version <= 2 ? s->version : 0;
}

/* The mode of the lock that the rank has on the object, 0 if it has none. */
static int lock_of(const vongselik_state *s, int rank, int object)
{
    int o = object - 1;
    if (s->writers[o] >> (rank - 1) & 1) return s->certified[o / 64] >> o % 64 & 1 ? CERTIFY : WRITE;
    return (int)(s->readers[o] >> (rank - 1) & 1);
}

/* Whether the rank has a lock of the mode on some object. */
static int has_lock(const vongselik_state *s, int rank, int mode)
{
    int o;
    for (o = 1; o <= s->objects; o++)
        if (lock_of(s, rank, o) == mode) return 1;
    return 0;
}

/* Counts what is special about a refused event of version 2. */
static void count_refused(const vongselik_state *before, event e, int number)
{
    int held, others;
    if (number == 14 && e.kind == VONGSELIK_FINISH && has_lock(before, e.rank, WRITE)) special[BY_14_AND_25]++;
    if (number != 17 && number != 21 && number != 24) return;
    held = lock_of(before, e.rank, e.object);
    others = !held && before->certified[(e.object - 1) / 64] >> (e.object - 1) % 64 & 1;
    special[BY_24_READER] += number == 24 && held == READ;
    special[BY_24_OTHERS] += number == 24 && others;
    special[BY_17_CERTIFIED] += number == 17 && held == CERTIFY && e.kind != VONGSELIK_CERTIFY;
    special[BY_21_CERTIFIED] += number == 21 && held == CERTIFY;
}

/* Counts what is special about the end of a run of version 2. */
static void count_end(const vongselik_state *before, event e)
{
    int certified = has_lock(before, e.rank, CERTIFY);
    special[FINISHED] += e.kind == VONGSELIK_FINISH && certified;
    special[ABANDONED] += e.kind == VONGSELIK_ABANDON && certified;
    special[DROPPED] += before->request[e.rank - 1] / 256 == CERTIFY;
}

/* Whether a sleeper holds a lock. */
static int sleeper_holds(const vongselik_state *s)
{
    int o;
    for (o = 0; o < 128; o++)
        if (s->sleeping & (s->readers[o] | s->writers[o])) return 1;
    return 0;
}

/* Whether the rank, if it is one, is in the set. */
static int in_set(uint64_t set, int rank)
{
    return rank >= 1 && rank <= 64 && set >> (rank - 1) & 1;
}

/* Counts what an event has to do with sleepers. */
static void count_sleepers(const vongselik_state *before, event e, vongselik_answer a)
{
    unsigned long *count = sleepers[version_of(before)];
    int done = a.answer == VONGSELIK_DONE, abandoned = done && e.kind == VONGSELIK_ABANDON && in_set(before->sleeping, e.rank);
    count[SLEPT] += done && e.kind == VONGSELIK_SLEEP;
    count[WOKE] += done && e.kind == VONGSELIK_WAKE;
    count[BY_12_ASLEEP] += a.refusal == 12 && in_set(before->sleeping, e.rank);
    count[BY_27_WAITING] += a.refusal == 27 && before->request[e.rank - 1];
    count[SLEEPER_NAMED] += a.answer == VONGSELIK_WAITS && in_set(before->sleeping, a.holder);
    count[SLEEPER_BESIDE] += a.answer == VONGSELIK_GRANTED && sleeper_holds(before);
    count[SLEEPER_ABANDONED] += abandoned;
    count[SLEEPER_WAITED_FOR] += abandoned && a.woken;
}

void count_event(const vongselik_state *before, event e, vongselik_answer a)
{
    int version = version_of(before), mode = e.kind == VONGSELIK_CERTIFY ? CERTIFY : e.kind - 1;
    events[version]++;
    if (a.answer == VONGSELIK_GRANTED) granted[version][mode]++;
    if (a.answer == VONGSELIK_WAITS) waited[version][mode][a.reason]++;
    if (a.answer == VONGSELIK_WAITS && version == 2 && a.object == e.object) met[mode][lock_of(before, a.holder, a.object)]++;
    if (a.answer == VONGSELIK_DONE && a.woken) woken[version][before->request[a.woken - 1] / 256 % 4]++;
    if (a.answer == VONGSELIK_DONE && version == 2 && (e.kind == VONGSELIK_FINISH || e.kind == VONGSELIK_ABANDON)) count_end(before, e);
    count_sleepers(before, e, a);
    if (a.answer != VONGSELIK_REFUSED) return;
    refused[version][e.kind <= VONGSELIK_WAKE ? e.kind : 0][a.refusal]++;
    if (version == 2) count_refused(before, e, a.refusal);
}

void count_asleep(const vongselik_state *s, int awake_refusal)
{
    in_place_of[version_of(s)][awake_refusal]++;
}

void count_running(const vongselik_state *s, int rank, int awake_rank)
{
    if (rank != awake_rank) sleepers[version_of(s)][rank ? RUNS_ANOTHER : RUNS_NONE]++;
}

/* Counts a state that is not well formed for the sleeping marks alone, where these are wrong in one way. */
static void count_marks(const vongselik_state *s)
{
    unsigned long *count = sleepers[version_of(s)];
    int idle = 0, waiting = 0, above = 0, rank;
    for (rank = 1; rank <= 64; rank++) {
        if (!in_set(s->sleeping, rank)) continue;
        above |= rank > s->jobs;
        idle |= rank <= s->jobs && !in_set(s->active, rank);
        waiting |= s->request[rank - 1] != 0;
    }
    count[IDLE_MARK] += idle && !waiting && !above;
    count[WAITING_MARK] += waiting && !idle && !above;
    count[MARK_ABOVE] += above && !idle && !waiting;
}

void count_handed_in(const vongselik_state *s, int well_formed, int awake_well_formed)
{
    int version = version_of(s);
    handed_in[version]++;
    if (well_formed) well_formed_in[version]++;
    if (well_formed && sleeper_holds(s)) sleepers[version][SLEEPER_HOLDS]++;
    if (!well_formed && awake_well_formed) count_marks(s);
}

/* ---- What has to occur */

static const char *const mode_name[] = {"", "read", "write", "certify"}, *const reason_name[] = {"", "conflict", "ceiling", "cap"};
static const char *const kind_name[] = {"another kind", "start", "read", "write", "unlock", "finish", "abandon", "certify", "sleep", "wake"};

/* The refusals that have to occur, 0 behind them, by kind: on a table of either version, and what one version adds. */
static const int by_kind[10][10] = {
    {8, 9, 0}, {8, 10, 11, 12, 0}, {8, 10, 11, 13, 14, 26, 15, 16, 17, 0}, {8, 10, 11, 13, 14, 26, 15, 16, 17, 0}, {8, 10, 11, 13, 14, 26, 18, 21, 0},
    {8, 10, 11, 13, 14, 26, 0}, {8, 10, 11, 13, 0}, {8, 0}, {8, 10, 11, 13, 14, 26, 0}, {8, 10, 11, 13, 27, 0}};
static const int certify_of_1[] = {9, 0}, certify_of_2[] = {10, 11, 13, 14, 26, 15, 16, 17, 24, 0}, finish_of_2[] = {25, 0};

/* The refusals in the place of which 26 has to occur: on either version, and what version 2 adds. */
static const int after_26[] = {15, 16, 17, 18, 21, 0}, after_26_of_2[] = {25, 24, 0};

/* Prints how often refusals by these numbers came, and checks that each came if it has to. */
static void print_refused(const int *numbers, const unsigned long *counts)
{
    char words[20];
    for (; *numbers; numbers++) {
        sprintf(words, "by %d:", *numbers);
        print_came(words, counts[*numbers]);
    }
}

/* The refusals of a version by kind. */
static void print_kinds(int version)
{
    int kind;
    for (kind = 0; kind <= VONGSELIK_WAKE; kind++) {
        const unsigned long *counts = refused[version][kind];
        printf("  %s refused", kind_name[kind]);
        print_refused(by_kind[kind], counts);
        if (kind == VONGSELIK_CERTIFY) print_refused(version == 1 ? certify_of_1 : certify_of_2, counts);
        if (kind == VONGSELIK_FINISH && version == 2) print_refused(finish_of_2, counts);
        printf("\n");
    }
}

/* What is counted of sleepers. */
static void print_sleepers(int version)
{
    printf("  26 in the place of");
    print_came("none:", in_place_of[version][0]);
    print_refused(after_26, in_place_of[version]);
    if (version == 2) print_refused(after_26_of_2, in_place_of[version]);
    printf("\n");
    print_named(0, SLEEPER_EVENTS, sleeper_name, sleepers[version]);
    print_named(SLEEPER_EVENTS, SLEEPER_QUESTIONS, sleeper_name, sleepers[version]);
    print_named(SLEEPER_QUESTIONS, SLEEPERS, sleeper_name, sleepers[version]);
}

/* What is counted of either version: the requests by mode, granted, woken, and waiting by reason; the refusals; the sleepers. */
static void print_version(int version)
{
    int mode, reason;
    printf("version %d: %lu events, %lu states handed in, ", version, events[version], handed_in[version]);
    printf("%lu of them well formed\n", well_formed_in[version]);
    for (mode = READ; mode <= (version == 1 ? WRITE : CERTIFY); mode++) {
        printf("  %s:", mode_name[mode]);
        print_came("granted", granted[version][mode]);
        print_came("woken", woken[version][mode]);
        for (reason = 1; reason <= 3; reason++) print_came(reason_name[reason], waited[version][mode][reason]);
        printf("\n");
    }
    print_kinds(version);
    print_sleepers(version);
}

/* What is counted of version 2 alone. A request to certify can't meet another's write or certify lock on its object: the job itself has the write lock. */
static void print_version_2(void)
{
    int mode, held;
    for (mode = READ; mode <= CERTIFY; mode++) {
        printf("  %s waits, and the lock on its object is", mode_name[mode]);
        for (held = READ; held <= (mode == CERTIFY ? READ : CERTIFY); held++) print_came(mode_name[held], met[mode][held]);
        printf("\n");
    }
    print_named(0, SPECIAL, special_name, special);
}

void check_answers_occurred(int tables, int events_each)
{
    unsigned long by_8 = 0;
    int kind;
    for (kind = 0; kind <= VONGSELIK_WAKE; kind++) by_8 += refused[2][kind][8];
    print_version(1);
    print_version(2);
    print_version_2();
    if (tables < USUAL_TABLES || events_each < USUAL_EVENTS) return;
    check(events[2] - by_8 >= ENOUGH_EVENTS, "too few events on well-formed states of version 2");
    check(well_formed_in[2] >= ENOUGH_STATES && handed_in[2] - well_formed_in[2] >= ENOUGH_STATES, "too few handed-in states of version 2");
}
