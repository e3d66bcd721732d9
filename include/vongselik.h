/* Vongselik, the sorter's lock manager, for C99 and C++: link with libvongselik.a.
 *
 * A table says which jobs there are, on which processors, and what each may read and write. A state is a table with its locks and waiting jobs.
 * The caller keeps the state in a struct, sends events to it, and asks questions about it. A job is its rank: 1 is the most urgent. Ranks and
 * objects count from 1, processors from 0.
 *
 * A table is of version 1 or 2. With version 2 each object has a copy that readers see and one that its writer works on, so that a write lock may stand
 * beside the read locks of others. Before its run can finish, a job turns each of its write locks into a certify lock, which stands alone: under it the
 * job's copy takes the place of the one that readers see. After an unlock a job can certify no more: with a write lock left, its run can only be abandoned.
 *
 * Every call may be given any contents of the struct, any bytes and any numbers: it answers, or refuses by a number from 1 to 27 (below).
 * A call that refuses leaves every byte that was lent to it as it was; an event that is refused in a list of events leaves the state as it was, and has its
 * answer as the others have. No call allocates, blocks, ends the program or keeps anything between calls, so that two threads may work on two states.
 * Reading a table takes about 6 KB of stack and writing one about 11 KB, an event, a list of events, a question, the state page or a test load less
 * than 1 KB. Of the C library only memcpy and memset are needed.
 *
 * What the caller still owes: each pointer points to an object of its type (a buffer or a list: to at least as many bytes or elements as its length says,
 * at most PTRDIFF_MAX bytes), aligned as C aligns it; the objects lent to one call do not overlap; and no other thread writes them during the call.
 * Bytes, a buffer or a list of length 0 may be lent as a null pointer. */
#ifndef VONGSELIK_H
#define VONGSELIK_H

#include <stddef.h>
#include <stdint.h>

#ifdef __cplusplus
extern "C" {
#endif

/* ---- Limits */

#define VONGSELIK_MOST_JOBS 64
#define VONGSELIK_MOST_OBJECTS 128
#define VONGSELIK_MOST_PROCESSORS 8

/* A buffer of this length is long enough for every table that vongselik_write_table writes. */
#define VONGSELIK_LONGEST_TABLE (10 + VONGSELIK_MOST_JOBS + 3 * VONGSELIK_MOST_JOBS * VONGSELIK_MOST_OBJECTS)

/* A buffer of this length is long enough for every page that vongselik_page lays: a line of 21 bytes for each job. */
#define VONGSELIK_LONGEST_PAGE (21 * VONGSELIK_MOST_JOBS)

/* ---- The state */

/* A table and its locks. In a set of ranks, rank r is bit r - 1. All is filled in by vongselik_read_table, and changed by vongselik_event
 * and vongselik_events. What it says has to fit together, or every call refuses it by 8; what these calls leave always does.
 * The holder follows from the locks, and they keep it true: it is not for the caller to set. Whoever puts a state together by hand, or changes its locks, has
 * to put the true rank there too; and of two jobs that hold locks, the more urgent one has to be more urgent than every weight that the other holds. A read
 * lock weighs the more urgent of the object's write ceiling and its holder's own rank, a write lock the absolute ceiling, on a version 2 table the write
 * ceiling, and a certify lock the absolute ceiling. */
typedef struct vongselik_state {
    uint8_t version;                                   /* 1 or 2 */
    uint8_t processors;                                /* 1 to 8 */
    uint8_t jobs;                                      /* 1 to 64: the ranks are 1 to jobs */
    uint8_t objects;                                   /* 1 to 128: the objects are 1 to objects */
    uint8_t processor_of[VONGSELIK_MOST_JOBS];         /* by rank - 1 */
    uint8_t holder;                                    /* the most urgent rank that holds a lock, 0 if none holds any */
    uint64_t may_read[VONGSELIK_MOST_OBJECTS];         /* by object - 1: the ranks that are declared to read it */
    uint64_t may_write[VONGSELIK_MOST_OBJECTS];        /* by object - 1: the ranks that are declared to write it */
    uint64_t active;                                   /* the ranks of active jobs */
    uint64_t unlocked;                                 /* the ranks of jobs that have unlocked in this run, and may not lock any more */
    uint64_t sleeping;                                 /* the ranks of jobs that sleep: active ones that do not wait */
    uint64_t readers[VONGSELIK_MOST_OBJECTS];          /* by object - 1: the ranks that hold a read lock */
    uint64_t writers[VONGSELIK_MOST_OBJECTS];          /* by object - 1: the rank that holds the write or certify lock, to the end of its run */
    uint64_t certified[2];                             /* object o is bit (o - 1) % 64 of word (o - 1) / 64: its write lock is a certify lock */
    uint16_t request[VONGSELIK_MOST_JOBS];             /* by rank - 1: 0 if the job does not wait, else mode * 256 + object (1 read, 2 write, 3 certify) */
} vongselik_state;

/* ---- Numbers */

/* Kinds of event. */
enum {
    VONGSELIK_START = 1,      /* an idle job becomes active */
    VONGSELIK_READ_LOCK = 2,  /* granted, or the job waits */
    VONGSELIK_WRITE_LOCK = 3, /* granted, or the job waits */
    VONGSELIK_UNLOCK = 4,     /* for read locks: gives up the lock; the job may lock no more in this run. Write and certify locks stay until the end */
    VONGSELIK_FINISH = 5,     /* ends the run and releases everything */
    VONGSELIK_ABANDON = 6,    /* as finish, also for a waiting job, whose request is dropped, and with write locks that are not certified */
    VONGSELIK_CERTIFY = 7,    /* on a version 2 table, turns the job's write lock into a certify lock: granted, or the job waits and keeps the write lock */
    VONGSELIK_SLEEP = 8,      /* the job falls asleep: its processor passes over it, and it keeps its locks */
    VONGSELIK_WAKE = 9        /* the sleeping job is awake again. No lock is given to anybody */
};

/* Answers to an event. */
enum {
    VONGSELIK_GRANTED = 1, /* the job has the lock */
    VONGSELIK_WAITS = 2,   /* the job waits: holder, object and reason */
    VONGSELIK_DONE = 3,    /* woken: the rank of the waiting job that got its lock, or 0 */
    VONGSELIK_REFUSED = 4  /* refusal: the number; nothing has changed */
};

/* Reasons of a wait. Two locks on an object conflict, on a version 1 table, if either is a write lock; on a version 2 table, if either is a certify lock or
 * both are write locks. */
enum {
    VONGSELIK_CONFLICT = 1, /* the named lock is on the requested object, and conflicts with the requested lock */
    VONGSELIK_CEILING = 2,  /* the named lock's ceiling is too urgent */
    VONGSELIK_CAP = 3       /* the named lock is a read lock whose holder is more urgent than its ceiling */
};

/* Refusals. */
enum {
    VONGSELIK_NOT_REFUSED = 0,
    /* by the table bytes */
    VONGSELIK_BYTES_END_EARLY = 1,
    VONGSELIK_WRONG_MARK = 2,
    VONGSELIK_WRONG_VERSION = 3, /* neither 1 nor 2 */
    VONGSELIK_COUNT_OUT_OF_RANGE = 4,
    VONGSELIK_PROCESSOR_BYTE_TOO_LARGE = 5,
    VONGSELIK_ENTRY_OUT_OF_RANGE = 6,
    VONGSELIK_ENTRY_OUT_OF_ORDER = 7,
    /* by the state handed in */
    VONGSELIK_STATE_NOT_WELL_FORMED = 8, /* also if it carries a holder that is not the most urgent one, or has holders out of order */
    /* by the event or the question */
    VONGSELIK_UNKNOWN_KIND = 9, /* or certify on a version 1 table */
    VONGSELIK_RANK_OUT_OF_RANGE = 10,
    VONGSELIK_OBJECT_OUT_OF_RANGE = 11, /* or not 0 for start, finish, abandon, sleep and wake */
    VONGSELIK_ALREADY_ACTIVE = 12,
    VONGSELIK_IDLE = 13,
    VONGSELIK_WAITING = 14,
    VONGSELIK_LOCK_AFTER_UNLOCK = 15, /* or certify */
    VONGSELIK_NOT_DECLARED = 16, /* for certify: the right to write */
    VONGSELIK_ALREADY_HELD = 17, /* that lock, or the write or certify lock; for certify: the certify lock alone */
    VONGSELIK_NOT_HELD = 18,
    VONGSELIK_NO_SUCH_PROCESSOR = 19,
    VONGSELIK_BUFFER_TOO_SHORT = 20, /* for the table */
    VONGSELIK_UNLOCK_OF_WRITE_LOCK = 21, /* or of a certify lock */
    VONGSELIK_BUFFER_TOO_SHORT_FOR_PAGE = 22,
    VONGSELIK_BUFFER_TOO_SHORT_FOR_EVENTS = 23, /* shorter than three times the count */
    VONGSELIK_CERTIFY_WITHOUT_WRITE_LOCK = 24,
    VONGSELIK_FINISH_WITHOUT_CERTIFY = 25, /* on a version 2 table, finish with a write lock that is not certified */
    VONGSELIK_ASLEEP = 26, /* a lock, unlock, finish, certify or sleep of a sleeping job */
    VONGSELIK_NOT_ASLEEP = 27 /* wake of a job that is not asleep */
};

/* The answer to an event. What its case does not have is 0. */
typedef struct vongselik_answer {
    uint8_t answer;  /* VONGSELIK_GRANTED, VONGSELIK_WAITS, VONGSELIK_DONE or VONGSELIK_REFUSED */
    uint8_t holder;  /* waits: the rank that holds the named lock */
    uint8_t object;  /* waits: the object of the named lock */
    uint8_t reason;  /* waits: VONGSELIK_CONFLICT, VONGSELIK_CEILING or VONGSELIK_CAP */
    uint8_t woken;   /* done: the rank that was woken, or 0 */
    uint8_t refusal; /* refused: the number */
} vongselik_answer;

/* One job's entries within table bytes. */
typedef struct vongselik_entries {
    size_t start;    /* the index of their first byte */
    size_t length;   /* how many bytes they have, three for each entry */
    uint8_t refusal; /* 0, or the refusal's number: then start and length are 0 */
} vongselik_entries;

/* ---- The proved functions. They take the parts of a state one by one; write the calls below instead. */

uint32_t vongselik_parts_event(
    uint8_t version, uint8_t processors, uint8_t jobs, uint8_t objects, const uint8_t *processor_of, const uint64_t *may_read, const uint64_t *may_write,
    uint64_t *active, uint64_t *unlocked, uint64_t *sleeping, uint8_t *holder, uint64_t *readers, uint64_t *writers, uint64_t *certified, uint16_t *request,
    uint8_t kind, uint8_t rank, uint8_t object);

size_t vongselik_parts_events(
    uint8_t version, uint8_t processors, uint8_t jobs, uint8_t objects, const uint8_t *processor_of, const uint64_t *may_read, const uint64_t *may_write,
    uint64_t *active, uint64_t *unlocked, uint64_t *sleeping, uint8_t *holder, uint64_t *readers, uint64_t *writers, uint64_t *certified, uint16_t *request,
    const uint8_t *events, size_t events_size, uint32_t *answers, size_t answers_size);

uint8_t vongselik_parts_inherited_rank(
    uint8_t version, uint8_t processors, uint8_t jobs, uint8_t objects, const uint8_t *processor_of, const uint64_t *may_read, const uint64_t *may_write,
    uint64_t active, uint64_t unlocked, uint64_t sleeping, uint8_t holder, const uint64_t *readers, const uint64_t *writers, const uint64_t *certified,
    const uint16_t *request, uint8_t rank, uint8_t *inherited);

uint8_t vongselik_parts_named_lock(
    uint8_t version, uint8_t processors, uint8_t jobs, uint8_t objects, const uint8_t *processor_of, const uint64_t *may_read, const uint64_t *may_write,
    uint64_t active, uint64_t unlocked, uint64_t sleeping, uint8_t holder, const uint64_t *readers, const uint64_t *writers, const uint64_t *certified,
    const uint16_t *request, uint8_t rank, uint8_t *named_holder, uint8_t *named_object);

uint8_t vongselik_parts_ceilings(
    uint8_t version, uint8_t processors, uint8_t jobs, uint8_t objects, const uint8_t *processor_of, const uint64_t *may_read, const uint64_t *may_write,
    uint64_t active, uint64_t unlocked, uint64_t sleeping, uint8_t holder, const uint64_t *readers, const uint64_t *writers, const uint64_t *certified,
    const uint16_t *request, uint8_t object, uint16_t *write_ceiling, uint16_t *absolute_ceiling);

uint8_t vongselik_parts_running(
    uint8_t version, uint8_t processors, uint8_t jobs, uint8_t objects, const uint8_t *processor_of, const uint64_t *may_read, const uint64_t *may_write,
    uint64_t active, uint64_t unlocked, uint64_t sleeping, uint8_t holder, const uint64_t *readers, const uint64_t *writers, const uint64_t *certified,
    const uint16_t *request, uint8_t processor, uint8_t *rank);

uint8_t vongselik_parts_read_table(
    const uint8_t *bytes, size_t size, size_t *used, uint8_t *version, uint8_t *processors, uint8_t *jobs, uint8_t *objects, uint8_t *processor_of,
    uint64_t *may_read, uint64_t *may_write, uint64_t *active, uint64_t *unlocked, uint64_t *sleeping, uint8_t *holder, uint64_t *readers,
    uint64_t *writers, uint64_t *certified, uint16_t *request);

uint8_t vongselik_parts_job_entries(const uint8_t *bytes, size_t size, uint8_t rank, size_t *start, size_t *length);

uint8_t vongselik_parts_write_table(
    uint8_t version, uint8_t processors, uint8_t jobs, uint8_t objects, const uint8_t *processor_of, const uint64_t *may_read, const uint64_t *may_write,
    uint64_t active, uint64_t unlocked, uint64_t sleeping, uint8_t holder, const uint64_t *readers, const uint64_t *writers, const uint64_t *certified,
    const uint16_t *request, uint8_t *buffer, size_t size, size_t *length);

uint8_t vongselik_parts_page(
    uint8_t version, uint8_t processors, uint8_t jobs, uint8_t objects, const uint8_t *processor_of, const uint64_t *may_read, const uint64_t *may_write,
    uint64_t active, uint64_t unlocked, uint64_t sleeping, uint8_t holder, const uint64_t *readers, const uint64_t *writers, const uint64_t *certified,
    const uint16_t *request, uint8_t *buffer, size_t size, size_t *length);

uint8_t vongselik_parts_make_events(
    uint8_t version, uint8_t processors, uint8_t jobs, uint8_t objects, const uint8_t *processor_of, const uint64_t *may_read, const uint64_t *may_write,
    uint64_t active, uint64_t unlocked, uint64_t sleeping, uint8_t holder, const uint64_t *readers, const uint64_t *writers, const uint64_t *certified,
    const uint16_t *request, uint32_t *seed, size_t count, uint8_t *buffer, size_t size);

/* ---- Tables */

/* Reads the table at the front of the bytes: fills the whole state, with every job idle and every object unlocked, and sets *used to the table's length.
 * The bytes behind the table are not looked at. Answers 0.
 * Refusals: 1 to 7. The state and *used are then as they were. */
static inline uint8_t vongselik_read_table(vongselik_state *state, const uint8_t *bytes, size_t size, size_t *used)
{
    const uint8_t none = 0;
    return vongselik_parts_read_table(
        size ? bytes : &none, size, used, &state->version, &state->processors, &state->jobs, &state->objects, state->processor_of, state->may_read,
        state->may_write, &state->active, &state->unlocked, &state->sleeping, &state->holder, state->readers, state->writers, state->certified, state->request);
}

/* Says where the entries of one job stand in table bytes; length 0 if it has none.
 * Refusals: 1 to 7, 10. Start and length are then 0. Nothing is written. */
static inline vongselik_entries vongselik_job_entries(const uint8_t *bytes, size_t size, uint8_t rank)
{
    const uint8_t none = 0;
    vongselik_entries entries = {0, 0, 0};
    entries.refusal = vongselik_parts_job_entries(size ? bytes : &none, size, rank, &entries.start, &entries.length);
    return entries;
}

/* Lays the state's table into the front of the buffer, sets *length to the table's length and leaves the rest of the buffer untouched. Answers 0.
 * Refusals: 8; 20 if the table is longer than the buffer. The buffer and *length are then as they were. The state is only read. */
static inline uint8_t vongselik_write_table(const vongselik_state *state, uint8_t *buffer, size_t size, size_t *length)
{
    uint8_t none = 0;
    return vongselik_parts_write_table(
        state->version, state->processors, state->jobs, state->objects, state->processor_of, state->may_read, state->may_write, state->active,
        state->unlocked, state->sleeping, state->holder, state->readers, state->writers, state->certified, state->request, size ? buffer : &none, size, length);
}

/* ---- Events */

/* Takes a packed answer apart, such as vongselik_events gives: the answer in the top byte, then its values. */
static inline vongselik_answer vongselik_unpack(uint32_t packed)
{
    vongselik_answer answer = {0, 0, 0, 0, 0, 0};
    answer.answer = (uint8_t)(packed >> 24);
    if (answer.answer == VONGSELIK_WAITS) {
        answer.holder = (uint8_t)(packed >> 16);
        answer.object = (uint8_t)(packed >> 8);
        answer.reason = (uint8_t)packed;
    } else if (answer.answer == VONGSELIK_DONE) {
        answer.woken = (uint8_t)(packed >> 16);
    } else if (answer.answer == VONGSELIK_REFUSED) {
        answer.refusal = (uint8_t)(packed >> 16);
    }
    return answer;
}

/* An event of a job: its kind, its rank, and an object (0 for start, finish, abandon, sleep and wake). Changes the state, and answers granted, waits or done.
 * Refusals: 8 to 18, 21, 24 to 27, by the answer VONGSELIK_REFUSED. The state is then as it was. The table in the state is never changed. */
static inline vongselik_answer vongselik_event(vongselik_state *state, uint8_t kind, uint8_t rank, uint8_t object)
{
    return vongselik_unpack(vongselik_parts_event(
        state->version, state->processors, state->jobs, state->objects, state->processor_of, state->may_read, state->may_write, &state->active,
        &state->unlocked, &state->sleeping, &state->holder, state->readers, state->writers, state->certified, state->request, kind, rank, object));
}

/* A list of events, three bytes each: kind, rank, object. Changes the state and answers them in their order, each as vongselik_event does:
 * answers[i] is the packed answer to the event at byte 3 * i (vongselik_unpack). The events are 3 * count bytes, the answers count elements.
 * The whole state is tested once, and not at each event. Answers how many events it answered: count.
 * Refusals: 8 to 18, 21, 24 to 27, each event's by its own answer. A refused event leaves the state as it was, and those after it are answered all the same;
 * a state that is not well formed refuses every event by 8, and is then as it was. The table in the state is never changed.
 * Use it for a replay, a log or a test. In live control send one event at a time: here nobody sees an answer before all are given, and there
 * another may ask about the state or change it between two events. */
static inline size_t vongselik_events(vongselik_state *state, const uint8_t *events, uint32_t *answers, size_t count)
{
    const uint8_t no_event = 0;
    uint32_t no_answer = 0;
    return vongselik_parts_events(
        state->version, state->processors, state->jobs, state->objects, state->processor_of, state->may_read, state->may_write, &state->active,
        &state->unlocked, &state->sleeping, &state->holder, state->readers, state->writers, state->certified, state->request,
        count ? events : &no_event, 3 * count, count ? answers : &no_answer, count);
}

/* ---- Questions. The state is only read. */

/* Sets *inherited to the most urgent of an active job's own rank and those of the waiting jobs that name it. Answers 0.
 * Refusals: 8, 10, 13. *inherited is then as it was. */
static inline uint8_t vongselik_inherited_rank(const vongselik_state *state, uint8_t rank, uint8_t *inherited)
{
    return vongselik_parts_inherited_rank(
        state->version, state->processors, state->jobs, state->objects, state->processor_of, state->may_read, state->may_write, state->active,
        state->unlocked, state->sleeping, state->holder, state->readers, state->writers, state->certified, state->request, rank, inherited);
}

/* Sets *holder and *object to the lock that an active job names, 0 and 0 if it names nobody. Answers 0.
 * Refusals: 8, 10, 13. *holder and *object are then as they were. */
static inline uint8_t vongselik_named_lock(const vongselik_state *state, uint8_t rank, uint8_t *holder, uint8_t *object)
{
    return vongselik_parts_named_lock(
        state->version, state->processors, state->jobs, state->objects, state->processor_of, state->may_read, state->may_write, state->active,
        state->unlocked, state->sleeping, state->holder, state->readers, state->writers, state->certified, state->request, rank, holder, object);
}

/* The ceiling of an object of the state's table that nobody is declared to lock in that way: one past the last rank. */
#define VONGSELIK_NOBODY(state) ((uint16_t)((state)->jobs + 1))

/* Sets *write_ceiling to the most urgent rank declared to write the object, and *absolute_ceiling to the most urgent declared to read or write it;
 * VONGSELIK_NOBODY(state) if there is none. Answers 0.
 * Refusals: 8, 11. The two ceilings are then as they were. */
static inline uint8_t vongselik_ceilings(const vongselik_state *state, uint8_t object, uint16_t *write_ceiling, uint16_t *absolute_ceiling)
{
    return vongselik_parts_ceilings(
        state->version, state->processors, state->jobs, state->objects, state->processor_of, state->may_read, state->may_write, state->active,
        state->unlocked, state->sleeping, state->holder, state->readers, state->writers, state->certified, state->request, object,
        write_ceiling, absolute_ceiling);
}

/* Sets *rank to the job that the processor runs: its active job with the most urgent inherited rank among those that neither wait nor sleep; 0 if the
 * processor is idle. Answers 0.
 * Refusals: 8, 19. *rank is then as it was. */
static inline uint8_t vongselik_running(const vongselik_state *state, uint8_t processor, uint8_t *rank)
{
    return vongselik_parts_running(
        state->version, state->processors, state->jobs, state->objects, state->processor_of, state->may_read, state->may_write, state->active,
        state->unlocked, state->sleeping, state->holder, state->readers, state->writers, state->certified, state->request, processor, rank);
}

/* ---- The state page */

/* Lays the state page into the front of the buffer, sets *length to the page's length and leaves the rest of the buffer untouched. Answers 0.
 * The page is text, a line for each active job by ascending rank; with no active job its length is 0. A line is 20 characters and a line feed. Its fields
 * are right-aligned, with one space between them: the rank in 3 characters, the processor in 2, a letter (R the job runs, W it waits, Z it sleeps, I it is
 * ready), the inherited rank in 3, and holder and object of the lock that the job names in 3 each, blank if it names nobody. They are what the questions
 * answer.
 * Refusals: 8; 22 if the page is longer than the buffer. The buffer and *length are then as they were. The state is only read. */
static inline uint8_t vongselik_page(const vongselik_state *state, uint8_t *buffer, size_t size, size_t *length)
{
    uint8_t none = 0;
    return vongselik_parts_page(
        state->version, state->processors, state->jobs, state->objects, state->processor_of, state->may_read, state->may_write, state->active,
        state->unlocked, state->sleeping, state->holder, state->readers, state->writers, state->certified, state->request, size ? buffer : &none, size, length);
}

/* ---- A test load */

/* Lays count events, three bytes each (kind, rank, object), into the front of the buffer, sets *seed to the next seed, from which the next call goes on,
 * and leaves the rest of the buffer untouched. Answers 0.
 * Each event takes three steps of the seed. A step multiplies the seed by 1664525, adds 1013904223 and keeps the lowest 32 bits; the topmost 8 of them are
 * the step's number. The kind is 1 plus the first number modulo 6, the rank 1 plus the second modulo the number of jobs, the object 1 plus the third modulo
 * the number of objects. For start, finish and abandon the object is 0; the third step is taken all the same. No event is a certify, a sleep or a wake.
 * The same numbers of jobs and objects, seed and count give the same events everywhere. A load made in parts, each behind the one before and from the seed
 * that it left, has the same bytes as one made at once. With this table no event of it is refused by 9, 10 or 11; vongselik_events takes them as they are.
 * Refusals: 8; 23 if the buffer is shorter than three times the count. The buffer and *seed are then as they were. The state is only read. */
static inline uint8_t vongselik_make_events(const vongselik_state *state, uint32_t *seed, size_t count, uint8_t *buffer, size_t size)
{
    uint8_t none = 0;
    return vongselik_parts_make_events(
        state->version, state->processors, state->jobs, state->objects, state->processor_of, state->may_read, state->may_write, state->active,
        state->unlocked, state->sleeping, state->holder, state->readers, state->writers, state->certified, state->request, seed, count,
        size ? buffer : &none, size);
}

#ifdef __cplusplus
}
#endif

#endif
