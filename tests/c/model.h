/* The rule of document 01, with CR 1, CR 2, CR 4, CR 5, CR 6, CR 8 and CR 9 of document 02, written a second time, as plainly as possible: sets are tables
 * of flags, loops go over every job and object. */
#ifndef MODEL_H
#define MODEL_H

#include <stddef.h>
#include <stdint.h>

#include "vongselik.h"

/* A state, spread out. Index 0 is not used: ranks and objects count from 1. */
typedef struct model {
    int version, processors, jobs, objects;
    int processor[65];
    char may_read[129][65], may_write[129][65];
    char active[65], unlocked[65], sleeping[65];
    char reads[129][65], writes[129][65];
    char certified[129]; /* whether the write lock on the object is a certify lock */
    int wants[65], wanted_object[65]; /* wants: 0 nothing, else the mode of the request, which may be a wrong one in a state that was handed in */
    int holder; /* the rank that the state carries: the most urgent lock holder, 0 if none; it may be a wrong one in a state that was handed in */
} model;

/* The state in a C struct, spread out. */
void model_from(model *m, const vongselik_state *s);

/* Whether both say the same. */
int model_same(const model *m, const vongselik_state *s);

/* Whether the state is well formed: refusal 8. It is if it fits by the rules but those of CR 9, carries the true rank, and has its holders in order. */
int model_well_formed(const model *m);
int model_fits(const model *m);

/* Of a state that fits: whether it carries the true rank. */
int model_carries_truth(const model *m);

/* Of a state that fits: 0 if its holders are in order, that is, of two the more urgent one is more urgent than every weight that the other holds. Else the
 * mode of the first lock, by holder and object, that breaks this: 1 read, 2 write, 3 certify. */
int model_disorder(const model *m);

vongselik_answer model_event(model *m, int kind, int rank, int object);

/* The job becomes idle and loses its locks, marks and request; nobody is woken, and the carried rank stays. */
void model_end_run(model *m, int rank);

/* The questions answer the refusal's number, or 0 and the values. */
int model_inherited_rank(const model *m, int rank, int *inherited);
int model_named_lock(const model *m, int rank, int *holder, int *object);
int model_ceilings(const model *m, int object, int *write_ceiling, int *absolute_ceiling);
int model_running(const model *m, int processor, int *rank);

/* The tables: the refusal's number, or 0 and the values. */
int model_read_table(model *m, const uint8_t *bytes, size_t size, size_t *used);
int model_job_entries(const uint8_t *bytes, size_t size, int rank, size_t *start, size_t *length);
int model_write_table(const model *m, uint8_t *buffer, size_t size, size_t *length);

/* The state page: the refusal's number, or 0, the page at the front of the buffer and its length. */
int model_page(const model *m, uint8_t *buffer, size_t size, size_t *length);

/* A test load: the refusal's number, or 0, the events at the front of the buffer and the next seed. */
int model_make_events(const model *m, uint32_t *seed, size_t count, uint8_t *buffer, size_t size);

#endif
