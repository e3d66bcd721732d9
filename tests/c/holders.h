/* The most urgent holder, which a state carries: checks what document 02 says of it, CR 9, and counts what came of it, by version. */
#ifndef HOLDERS_H
#define HOLDERS_H

#include "inputs.h"
#include "model.h"
#include "vongselik.h"

/* Checks an answer of the library that is no refusal, and the state that it left: a request of the carried rank is granted, that of another is answered by what
 * the locks of the carried rank alone decide, and names it if it waits; the state then carries the most urgent of all holders. Counts how the carried rank
 * changed or stayed. */
void check_holder(const vongselik_state *before, event e, vongselik_answer a, const vongselik_state *after);

/* Checks whom the library says that the waiting jobs of a well-formed state name: the carried rank; nobody can be named only if no events led there. */
void check_names(const vongselik_state *s, int reached);

/* Counts a state that was handed in: the holders of one that is well formed, or which rule of CR 9 refuses one that no other rule does. */
void count_holders(const vongselik_state *s, const model *m);

/* Prints how often each of these came, and checks that each came; in a run of the usual size, that there were enough states with many holders in order, and
 * enough that only these rules refuse. */
void check_holders_occurred(int tables, int events_each);

#endif
