/* An unlock while jobs wait that wakes none of them: the states for it, and many of it. For waiting.c and tools/speed.c, which time it. For page_cost.c
 * too, which times the state page: events that have to be answered so, and the time. For load_cost.c, which times a test load: the time. */
#ifndef UNLOCKS_H
#define UNLOCKS_H

#include "vongselik.h"

/* Of 64 jobs, the last holds the lock that stops all waiting jobs, and gives up another one. */
enum { HOLDER = 64 };

typedef struct layout {
    const char *name;
    int objects, stopping, given_up;
    int all_held; /* whether the holder has a read lock on every other object */
} layout;

/* Sends an event that has to be answered so; ends the program if it is not. */
void send_answered(vongselik_state *s, int kind, int rank, int object, int answer);

/* Every job is started, the holder has its locks, and so many jobs wait. */
void prepare(vongselik_state *s, layout l, int waiting);

/* So many unlocks. After each, what it changed is put back; the carried rank stays the holder's, which keeps the stopping lock. */
void unlock_often(vongselik_state *s, layout l, int times);

/* The processor time so far in seconds: what others do on the machine does not count. */
double processor_time(void);

#endif
