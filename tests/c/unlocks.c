/* An unlock while jobs wait that wakes none of them: see unlocks.h. */
#define _POSIX_C_SOURCE 199309L
#include "unlocks.h"

#include <stdio.h>
#include <stdlib.h>
#include <string.h>
#include <time.h>

void send_answered(vongselik_state *s, int kind, int rank, int object, int answer)
{
    if (vongselik_event(s, (uint8_t)kind, (uint8_t)rank, (uint8_t)object).answer == answer) return;
    fprintf(stderr, "event %d %d %d is not answered by %d\n", kind, rank, object, answer);
    exit(1);
}

/* The fresh state of the table: everybody reads the stopping object, which the holder writes; the holder reads all others. */
static void declare(vongselik_state *s, layout l)
{
    int o;
    memset(s, 0, sizeof *s);
    s->version = 1;
    s->processors = 1;
    s->jobs = HOLDER;
    s->objects = (uint8_t)l.objects;
    for (o = 1; o <= l.objects; o++) s->may_read[o - 1] = o == l.stopping ? ~(uint64_t)0 : (uint64_t)1 << (HOLDER - 1);
    s->may_write[l.stopping - 1] = (uint64_t)1 << (HOLDER - 1);
}

void prepare(vongselik_state *s, layout l, int waiting)
{
    int r, o;
    declare(s, l);
    for (r = 1; r <= HOLDER; r++) send_answered(s, VONGSELIK_START, r, 0, VONGSELIK_DONE);
    send_answered(s, VONGSELIK_WRITE_LOCK, HOLDER, l.stopping, VONGSELIK_GRANTED);
    for (o = 1; o <= l.objects; o++)
        if (o == l.given_up || (l.all_held && o != l.stopping)) send_answered(s, VONGSELIK_READ_LOCK, HOLDER, o, VONGSELIK_GRANTED);
    for (r = 1; r <= waiting; r++) send_answered(s, VONGSELIK_READ_LOCK, r, l.stopping, VONGSELIK_WAITS);
}

void unlock_often(vongselik_state *s, layout l, int times)
{
    for (; times > 0; times--) {
        vongselik_answer a = vongselik_event(s, VONGSELIK_UNLOCK, HOLDER, (uint8_t)l.given_up);
        if (a.answer != VONGSELIK_DONE || a.woken) exit(1);
        s->unlocked = 0;
        s->readers[l.given_up - 1] = (uint64_t)1 << (HOLDER - 1);
    }
}

double processor_time(void)
{
    struct timespec t;
    clock_gettime(CLOCK_PROCESS_CPUTIME_ID, &t);
    return (double)t.tv_sec + (double)t.tv_nsec * 1e-9;
}
