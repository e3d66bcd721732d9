/* Finished runs as if one by one: see arrows.h. Written from document 02, CR 7, and not from the definitions of the proof. */
#include "arrows.h"

#include <stdio.h>
#include <string.h>

#include "checks.h"

/* As many runs and locks as are taken down; the rest of a longer list is left out. */
enum { MOST_RUNS = 1000, MOST_LOCKS = 4000, NOT_YET = -1 };

/* A run; its last grant is a moment. Moments are two for each event: first what it releases, then what it grants. */
typedef struct {
    int rank, finished, last_grant, slept;
} run;

/* A lock that a run was granted: its object and mode, the moment of the grant, and the moment of the release of the lock that the run had there in the end,
 * with that one's mode. */
typedef struct {
    int run, object, mode, granted, released, last_mode;
} lock;

static run runs[MOST_RUNS];
static lock locks[MOST_LOCKS];
static int run_count, lock_count, version, now;

/* By rank: the run that goes on, or NOT_YET, and the request that waits. */
static int current[256], asked_object[256], asked_mode[256];

/* Whether there is an arrow from one finished run to another; and the number of arrows that lead to a run, of those that have not been taken away. */
static unsigned char arrow[MOST_RUNS][MOST_RUNS];
static int leading_to[MOST_RUNS];

/* How many arrows there were by version, and of them from or to a run that slept; between runs of one job, and from a release to the woken grant of the same
 * event; how many locks were replaced. */
static unsigned long arrows_of[3], arrows_of_sleepers[3], arrows_of_one_job, arrows_in_one_event, replaced;

/* ---- Events and answers */

void begin_runs(int table_version)
{
    int i;
    version = table_version, now = run_count = lock_count = 0;
    for (i = 0; i < 256; i++) current[i] = NOT_YET;
}

/* Job `rank` is granted a lock at the moment. */
static void grant(int rank, int object, int mode, int moment)
{
    int i, r = current[rank];
    for (i = 0; i < lock_count; i++)
        if (locks[i].run == r && locks[i].object == object) locks[i].last_mode = mode, replaced++;
    locks[lock_count++] = (lock){r, object, mode, moment, NOT_YET, mode};
    runs[r].last_grant = moment;
}

/* Job `rank` gives up its lock on the object, or all of them for object 0. */
static void release(int rank, int object)
{
    int i;
    for (i = 0; i < lock_count; i++)
        if (locks[i].run == current[rank] && locks[i].released == NOT_YET && (!object || locks[i].object == object)) locks[i].released = 2 * now;
}

static int mode_of(int kind)
{
    return kind == VONGSELIK_READ_LOCK ? 1 : kind == VONGSELIK_WRITE_LOCK ? 2 : 3;
}

/* An event that was answered done. A sleep and a wake neither release nor grant. */
static void note_done(event e, int woken)
{
    if (e.kind == VONGSELIK_START) {
        runs[run_count] = (run){e.rank, 0, NOT_YET, 0};
        current[e.rank] = run_count++;
    } else if (e.kind == VONGSELIK_UNLOCK) {
        release(e.rank, e.object);
    } else if (e.kind == VONGSELIK_SLEEP) {
        runs[current[e.rank]].slept = 1;
    } else if (e.kind == VONGSELIK_FINISH || e.kind == VONGSELIK_ABANDON) {
        release(e.rank, 0);
        runs[current[e.rank]].finished = e.kind == VONGSELIK_FINISH;
        current[e.rank] = NOT_YET;
    }
    if (woken) grant(woken, asked_object[woken], asked_mode[woken], 2 * now + 1);
}

void note_event(event e, vongselik_answer a)
{
    if (run_count == MOST_RUNS || lock_count == MOST_LOCKS) return;
    if (a.answer == VONGSELIK_GRANTED) {
        grant(e.rank, e.object, mode_of(e.kind), 2 * now + 1);
    } else if (a.answer == VONGSELIK_WAITS) {
        asked_object[e.rank] = e.object;
        asked_mode[e.rank] = mode_of(e.kind);
    } else if (a.answer == VONGSELIK_DONE) {
        note_done(e, a.woken);
    }
    now++;
}

/* ---- Arrows */

static int conflicting(int m, int n)
{
    if (version == 1) return m == 2 || n == 2;
    return (m == 1 && n == 3) || (m == 3 && n == 1) || (m == 2 && n == 2) || (m == 3 && n == 3);
}

/* Two locks of different finished runs on one object. */
static int meet(const lock *a, const lock *b)
{
    return a->run != b->run && a->object == b->object && runs[a->run].finished && runs[b->run].finished;
}

/* Draws the arrow from the first lock's run to the second's, if the first was released before the second was granted and they conflict. */
static void draw(const lock *a, const lock *b)
{
    if (a->released > b->granted || !conflicting(a->last_mode, b->mode) || arrow[a->run][b->run]) return;
    arrow[a->run][b->run] = 1;
    leading_to[b->run]++;
    arrows_of[version]++;
    if (runs[a->run].slept || runs[b->run].slept) arrows_of_sleepers[version]++;
    if (runs[a->run].rank == runs[b->run].rank) arrows_of_one_job++;
    if (a->released / 2 == b->granted / 2) arrows_in_one_event++;
}

/* Of two runs granted conflicting locks on one object exactly one has an arrow to the other; and the one with the earlier last grant released its lock before
 * the other was granted the one that conflicts. */
static void check_conflict(const lock *a, const lock *b)
{
    check(arrow[a->run][b->run] + arrow[b->run][a->run] == 1, "exactly one of two runs in conflict has an arrow to the other");
    if (runs[a->run].last_grant < runs[b->run].last_grant) check(a->released < b->granted, "of two runs in conflict the earlier one released first");
}

/* Takes away one run after the other to which no arrow leads. Where arrows lead back, some are left. */
static int leads_back(void)
{
    int taken = 0, before = NOT_YET, i, j;
    static unsigned char gone[MOST_RUNS];
    memset(gone, 0, sizeof gone);
    while (taken > before) {
        before = taken;
        for (i = 0; i < run_count; i++) {
            if (gone[i] || leading_to[i]) continue;
            gone[i] = 1, taken++;
            for (j = 0; j < run_count; j++) leading_to[j] -= arrow[i][j];
        }
    }
    return taken < run_count;
}

/* The last grants of finished runs are at different moments, and every arrow leads to a later one. */
static void check_last_grants(void)
{
    int i, j;
    for (i = 0; i < run_count; i++)
        for (j = 0; j < run_count; j++) {
            if (arrow[i][j]) check(runs[i].last_grant < runs[j].last_grant, "an arrow leads to a later last grant");
            if (i < j && runs[i].last_grant != NOT_YET && runs[i].finished && runs[j].finished)
                check(runs[i].last_grant != runs[j].last_grant, "last grants are at different events");
        }
}

void check_arrows(void)
{
    int i, j;
    for (i = 0; i < run_count; i++) {
        memset(arrow[i], 0, (size_t)run_count);
        leading_to[i] = 0;
    }
    for (i = 0; i < lock_count; i++)
        for (j = 0; j < lock_count; j++)
            if (meet(locks + i, locks + j)) draw(locks + i, locks + j);
    for (i = 0; i < lock_count; i++)
        for (j = 0; j < lock_count; j++)
            if (meet(locks + i, locks + j) && conflicting(locks[i].mode, locks[j].mode)) check_conflict(locks + i, locks + j);
    check_last_grants();
    check(!leads_back(), "following arrows never leads back");
}

void check_arrows_occurred(int tables)
{
    printf("%lu arrows between finished runs: %lu of version 1, %lu of version 2; ", arrows_of[1] + arrows_of[2], arrows_of[1], arrows_of[2]);
    printf("%lu and %lu of these with a run that slept; ", arrows_of_sleepers[1], arrows_of_sleepers[2]);
    printf("%lu between runs of one job, %lu within one event; %lu locks replaced\n", arrows_of_one_job, arrows_in_one_event, replaced);
    if (tables < ENOUGH) return;
    check(arrows_of_sleepers[1] && arrows_of_sleepers[2] && arrows_of_one_job && arrows_in_one_event && replaced, "an arrow that has to occur does not");
}
