/* Finished runs as if one by one: document 02, CR 7, checked on events and their answers alone. */
#ifndef ARROWS_H
#define ARROWS_H

#include "inputs.h"
#include "vongselik.h"

/* Begins with no event: what comes is a list of events from a fresh state of a table of this version. */
void begin_runs(int version);

/* Takes down the next event and its answer. */
void note_event(event e, vongselik_answer a);

/* Draws the arrows between the finished runs and checks the three sentences, and the order by last grants that follows from them. */
void check_arrows(void);

/* Prints how many arrows there were, and checks that there were some of each sort. */
void check_arrows_occurred(int tables);

#endif
