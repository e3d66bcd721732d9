/* Counts which answers the compared events got, which questions met a sleeper, and how many states were handed in, by version. */
#ifndef OCCURRED_H
#define OCCURRED_H

#include "inputs.h"
#include "vongselik.h"

/* The usual run: so many tables and so many events on each. */
enum { USUAL_TABLES = 1000, USUAL_EVENTS = 220 };

/* Counts an event by the state before it and its answer. */
void count_event(const vongselik_state *before, event e, vongselik_answer a);

/* Counts an event of a sleeping job that was refused by 26, by the number that would refuse it if the job were awake, or 0. */
void count_asleep(const vongselik_state *s, int awake_refusal);

/* Counts an answer to the question for the running job, by what it would be if nobody slept. */
void count_running(const vongselik_state *s, int rank, int awake_rank);

/* Counts a state that was handed in, by whether it is well formed, and whether it would be if nobody slept. */
void count_handed_in(const vongselik_state *s, int well_formed, int awake_well_formed);

/* Prints how often each of these came, and checks that each came; in a run of the usual size, that there were enough events and states of version 2. */
void check_answers_occurred(int tables, int events_each);

#endif
