/* The most urgent holder, which a state carries: see holders.h. */
#include "holders.h"

#include <stdio.h>
#include <string.h>

#include "checks.h"
#include "occurred.h"

enum { READ = 1, WRITE = 2, CERTIFY = 3, MANY = 5, ENOUGH_STATES = 300 };

/* Requests that are not refused: granted to the carried rank, to a more urgent job, while nobody holds a lock; waiting. */
enum { GRANT_OWN, GRANT_BESIDE, GRANT_FIRST, WAITS, REQUESTS };

static const char *const request_name[REQUESTS] = {
    "granted to the carried rank:", "to a more urgent job:", "while nobody holds a lock:", "waits for the carried rank:"};

/* Unlocks and ends of runs, of a holder that is not carried and of the carried one, by who is carried afterwards; the carried one itself only after an
 * unlock. */
enum { OF_ANOTHER, TO_ANOTHER, TO_NOBODY, TO_WOKEN, TO_ITSELF, ENDS = TO_ITSELF, UNLOCKS };

static const char *const release_name[UNLOCKS] = {
    "of a holder that is not carried:", "of the carried one, and another is carried:", "nobody:", "a woken job:", "itself, which holds more:"};

/* States handed in that only a rule of CR 9 refuses: for a wrong rank that they carry, by which one; for a lock that weighs as much as a more urgent holder or
 * more, by its mode; for both. Then well-formed ones, by how many holders they have. Of version 2 alone: refused for a certify lock; for one that would be in
 * order as a write lock; and well formed, but not so if its write locks were certified. */
enum {
    CARRIES_NONE, CARRIES_ANOTHER, CARRIES_NO_HOLDER, CARRIES_ABOVE, CARRIES_WITHOUT_LOCKS, OUT_BY_READ, OUT_BY_WRITE, BOTH, NO_HOLDER, ONE_HOLDER, FEW_HOLDERS,
    MANY_HOLDERS, HANDED_IN, OUT_BY_CERTIFY = HANDED_IN, OUT_IF_CERTIFIED, IN_IF_NOT_CERTIFIED, HANDED_IN_2
};

static const char *const state_name[HANDED_IN_2] = {
    "carries 0, though somebody holds a lock:", "carries a holder that is not the most urgent:", "a rank that holds nothing:", "a rank above the job count:",
    "a rank, though nobody holds a lock:", "out of order by a read lock:", "by a write lock:", "both:",
    "well formed with no holder:", "with one:", "with 2 to 4:", "with 5 or more:",
    "out of order by a certify lock:", "by one that would be in order as a write lock:", "well formed, but not with its write locks certified:"};

/* The same by version, and the most holders in order; how many waiting jobs were asked whom they name, in states that events reached and in others, and how
 * many of these name nobody. */
static unsigned long requests[3][REQUESTS], unlocks[3][UNLOCKS], ends[3][UNLOCKS], states[3][HANDED_IN_2], most_holders[3];
static unsigned long reached_names, other_names, nobody_named;

/* ---- What a state says */

static int version_of(const vongselik_state *s)
{
    return s->version <= 2 ? s->version : 0;
}

/* Whether the rank, if it is one, is in the set. */
static int in_set(uint64_t set, int rank)
{
    return rank >= 1 && rank <= 64 && set >> (rank - 1) & 1;
}

/* The jobs that hold locks. */
static uint64_t holders_of(const vongselik_state *s)
{
    uint64_t set = 0;
    int o;
    for (o = 0; o < VONGSELIK_MOST_OBJECTS; o++) set |= s->readers[o] | s->writers[o];
    return set;
}

/* The most urgent of them, 0 if there is none. */
static int most_urgent(uint64_t holders)
{
    int rank;
    for (rank = 1; rank <= 64; rank++)
        if (in_set(holders, rank)) return rank;
    return 0;
}

/* ---- Events */

/* Counts an unlock or an end of a run. */
static void count_release(unsigned long *count, const vongselik_state *before, int rank, int woken, int holder)
{
    if (rank != before->holder) count[OF_ANOTHER] += (unsigned long)in_set(holders_of(before), rank);
    else count[woken ? TO_WOKEN : holder == rank ? TO_ITSELF : holder ? TO_ANOTHER : TO_NOBODY]++;
}

/* Counts an event that is not refused, by the rank that is carried after it. */
static void count_carried(const vongselik_state *before, event e, vongselik_answer a, int holder)
{
    int version = version_of(before), done = a.answer == VONGSELIK_DONE;
    if (a.answer == VONGSELIK_GRANTED) requests[version][e.rank == before->holder ? GRANT_OWN : before->holder ? GRANT_BESIDE : GRANT_FIRST]++;
    if (a.answer == VONGSELIK_WAITS) requests[version][WAITS]++;
    if (done && e.kind == VONGSELIK_UNLOCK) count_release(unlocks[version], before, e.rank, a.woken, holder);
    if (done && (e.kind == VONGSELIK_FINISH || e.kind == VONGSELIK_ABANDON)) count_release(ends[version], before, e.rank, a.woken, holder);
}

/* The model's answer to a request without all jobs but the requester and the carried rank. */
static vongselik_answer decided_by_one(const vongselik_state *before, event e)
{
    model m;
    int r;
    model_from(&m, before);
    for (r = 1; r <= m.jobs; r++)
        if (r != e.rank && r != m.holder) model_end_run(&m, r);
    return model_event(&m, e.kind, e.rank, e.object);
}

/* Checks the answer to a request: what the requester's rank and the locks of the carried one alone decide. */
static void check_request(const vongselik_state *before, event e, vongselik_answer a)
{
    vongselik_answer decided = decided_by_one(before, e);
    check(!memcmp(&a, &decided, sizeof a), "the locks of the carried rank alone decide a request");
    check(a.answer == VONGSELIK_WAITS ? a.holder == before->holder : a.holder == 0, "a request that waits names the carried rank");
    if (e.rank == before->holder) check(a.answer == VONGSELIK_GRANTED, "a request of the carried rank is granted");
}

void check_holder(const vongselik_state *before, event e, vongselik_answer a, const vongselik_state *after)
{
    if (a.answer == VONGSELIK_REFUSED) return;
    check(after->holder == most_urgent(holders_of(after)), "after an event the most urgent holder is carried");
    if (a.answer == VONGSELIK_GRANTED) check(after->holder == e.rank, "whoever is granted a lock is carried");
    if (a.woken) check(after->holder == a.woken, "a woken job is carried");
    if (a.answer != VONGSELIK_DONE) check_request(before, e, a);
    count_carried(before, e, a, after->holder);
}

/* ---- Names */

void check_names(const vongselik_state *s, int reached)
{
    uint8_t rank, refusal, holder = 0, object = 0;
    for (rank = 1; rank <= s->jobs; rank++) {
        if (!s->request[rank - 1]) continue;
        refusal = vongselik_named_lock(s, rank, &holder, &object);
        if (reached) {
            check(!refusal && holder && holder == s->holder, "whoever waits names the carried rank");
            reached_names++;
        } else {
            check(!refusal && (!holder || holder == s->holder), "whoever names somebody names the carried rank");
            other_names++;
            nobody_named += !refusal && !holder;
        }
    }
}

/* ---- States handed in */

/* The state with every write lock certified, or with none. */
static model with_marks(const model *m, int certified)
{
    model other = *m;
    int r, o;
    memset(other.certified, 0, sizeof other.certified);
    for (o = 1; o <= 128 && certified; o++)
        for (r = 1; r <= 64; r++) other.certified[o] |= m->writes[o][r];
    return other;
}

/* A state that carries a wrong rank, and is well formed otherwise. */
static void count_wrong_rank(const vongselik_state *s, uint64_t holders)
{
    unsigned long *count = states[version_of(s)];
    if (s->holder > s->jobs) count[CARRIES_ABOVE]++;
    else if (!holders) count[CARRIES_WITHOUT_LOCKS]++;
    else if (!s->holder) count[CARRIES_NONE]++;
    else count[in_set(holders, s->holder) ? CARRIES_ANOTHER : CARRIES_NO_HOLDER]++;
}

/* A state with its holders out of order, by a lock of this mode, and well formed otherwise. */
static void count_disorder(const vongselik_state *s, const model *m, int mode)
{
    unsigned long *count = states[version_of(s)];
    model uncertified = with_marks(m, 0);
    count[mode == READ ? OUT_BY_READ : mode == WRITE ? OUT_BY_WRITE : OUT_BY_CERTIFY]++;
    if (mode == CERTIFY && !model_disorder(&uncertified)) count[OUT_IF_CERTIFIED]++;
}

static void count_well_formed(const vongselik_state *s, const model *m, uint64_t holders)
{
    int version = version_of(s);
    model certified = with_marks(m, 1);
    unsigned long many = 0;
    for (; holders; holders &= holders - 1) many++;
    states[version][many == 0 ? NO_HOLDER : many == 1 ? ONE_HOLDER : many < MANY ? FEW_HOLDERS : MANY_HOLDERS]++;
    if (many > most_holders[version]) most_holders[version] = many;
    if (version == 2 && model_disorder(&certified)) states[version][IN_IF_NOT_CERTIFIED]++;
}

void count_holders(const vongselik_state *s, const model *m)
{
    uint64_t holders = holders_of(s);
    int disorder;
    if (!model_fits(m)) return;
    disorder = model_disorder(m);
    if (disorder && !model_carries_truth(m)) states[version_of(s)][BOTH]++;
    else if (disorder) count_disorder(s, m, disorder);
    else if (!model_carries_truth(m)) count_wrong_rank(s, holders);
    else count_well_formed(s, m, holders);
}

/* ---- What has to occur */

/* What is counted of a version. */
static void print_version(int version)
{
    printf("version %d, the carried rank: requests\n", version);
    print_named(0, REQUESTS, request_name, requests[version]);
    printf("  unlocks\n");
    print_named(0, UNLOCKS, release_name, unlocks[version]);
    printf("  ends of runs\n");
    print_named(0, ENDS, release_name, ends[version]);
    printf("  states handed in, with at most %lu holders in order; refused by 8 for nothing else\n", most_holders[version]);
    print_named(0, version == 1 ? HANDED_IN : HANDED_IN_2, state_name, states[version]);
}

void check_holders_occurred(int tables, int events_each)
{
    int version;
    printf("whom waiting jobs name: %lu asked in states that events reached, %lu in others, ", reached_names, other_names);
    printf("%lu of these name nobody\n", nobody_named);
    if (tables >= ENOUGH) check(reached_names && other_names && nobody_named, "a name that has to occur does not");
    for (version = 1; version <= 2; version++) {
        print_version(version);
        if (tables < USUAL_TABLES || events_each < USUAL_EVENTS) continue;
        check(states[version][MANY_HOLDERS] >= ENOUGH_STATES, "too few states with many holders in order");
        check(states[version][OUT_BY_READ] + states[version][OUT_BY_WRITE] >= ENOUGH_STATES, "too few states with holders out of order");
    }
}
