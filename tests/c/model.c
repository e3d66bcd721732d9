/* The rule of document 01, with CR 1, CR 2, CR 4, CR 5, CR 6, CR 8 and CR 9 of document 02, written a second time: see model.h. */
#include "model.h"

#include <stdio.h>
#include <string.h>

/* The modes of a lock and of a request. */
enum { READ = 1, WRITE = 2, CERTIFY = 3 };

/* ---- A state spread out */

static int in_set(uint64_t set, int rank)
{
    return (int)(set >> (rank - 1) & 1);
}

/* A set of ranks as flags. */
static void spread(char *flags, uint64_t set)
{
    int r;
    for (r = 1; r <= 64; r++) flags[r] = (char)in_set(set, r);
}

void model_from(model *m, const vongselik_state *s)
{
    int r, o;
    memset(m, 0, sizeof *m);
    m->version = s->version;
    m->processors = s->processors;
    m->jobs = s->jobs;
    m->objects = s->objects;
    m->holder = s->holder;
    spread(m->active, s->active);
    spread(m->unlocked, s->unlocked);
    spread(m->sleeping, s->sleeping);
    for (r = 1; r <= 64; r++) {
        m->processor[r] = s->processor_of[r - 1];
        m->wants[r] = s->request[r - 1] / 256;
        m->wanted_object[r] = s->request[r - 1] % 256;
    }
    for (o = 1; o <= 128; o++) {
        if (s->may_read[o - 1]) spread(m->may_read[o], s->may_read[o - 1]);
        if (s->may_write[o - 1]) spread(m->may_write[o], s->may_write[o - 1]);
        if (s->readers[o - 1]) spread(m->reads[o], s->readers[o - 1]);
        if (s->writers[o - 1]) spread(m->writes[o], s->writers[o - 1]);
        m->certified[o] = (char)in_set(s->certified[(o - 1) / 64], (o - 1) % 64 + 1);
    }
}

int model_same(const model *m, const vongselik_state *s)
{
    model other;
    model_from(&other, s);
    return !memcmp(m, &other, sizeof other);
}

/* ---- What a state says */

static int waits(const model *m, int rank)
{
    return m->wants[rank] || m->wanted_object[rank];
}

/* Whether the right is declared: to certify takes the right to write. */
static int may(const model *m, int mode, int rank, int object)
{
    return mode == READ ? m->may_read[object][rank] : m->may_write[object][rank];
}

/* Refusal 17: that lock or the write lock, certified or not, is held already; to certify: the job has certified the object already. */
static int held_already(const model *m, int mode, int rank, int object)
{
    if (mode == CERTIFY) return m->writes[object][rank] && m->certified[object];
    return m->writes[object][rank] || (mode == READ && m->reads[object][rank]);
}

/* Whether the job has a write lock that it has not certified. */
static int holds_uncertified(const model *m, int rank)
{
    int o;
    for (o = 1; o <= 128; o++)
        if (m->writes[o][rank] && !m->certified[o]) return 1;
    return 0;
}

/* The ceiling where nobody is declared: one past the last rank. */
static int nobody(const model *m)
{
    return m->jobs + 1;
}

static int write_ceiling(const model *m, int object)
{
    int r = 1;
    while (r < nobody(m) && !m->may_write[object][r]) r++;
    return r;
}

static int absolute_ceiling(const model *m, int object)
{
    int r = 1;
    while (r < nobody(m) && !m->may_write[object][r] && !m->may_read[object][r]) r++;
    return r;
}

/* The mode of the lock that the job has on the object, 0 if it has none. */
static int held_mode(const model *m, int rank, int object)
{
    if (m->writes[object][rank]) return m->certified[object] ? CERTIFY : WRITE;
    return m->reads[object][rank] ? READ : 0;
}

/* What a lock of this mode weighs. */
static int weight_of(const model *m, int mode, int holder, int object)
{
    int ceiling = write_ceiling(m, object);
    if (mode == READ) return ceiling < holder ? ceiling : holder;
    return mode == WRITE && m->version == 2 ? ceiling : absolute_ceiling(m, object);
}

/* Whether the job holds any lock. */
static int holds(const model *m, int rank)
{
    int o;
    for (o = 1; o <= m->objects; o++)
        if (held_mode(m, rank, o)) return 1;
    return 0;
}

/* The most urgent job that holds a lock, 0 if none does: worked out from all locks. */
static int most_urgent_holder(const model *m)
{
    int r;
    for (r = 1; r <= m->jobs; r++)
        if (holds(m, r)) return r;
    return 0;
}

/* ---- Well formed */

static int job_fits(const model *m, int r)
{
    if (r > m->jobs) return !m->active[r] && !m->unlocked[r] && !m->sleeping[r] && !waits(m, r);
    if (m->processor[r] >= m->processors) return 0;
    if (!m->active[r] && (m->unlocked[r] || m->sleeping[r] || waits(m, r))) return 0;
    if (!waits(m, r)) return 1;
    if (m->sleeping[r]) return 0;
    if (m->unlocked[r] || m->wants[r] < READ || m->wants[r] > (m->version == 1 ? WRITE : CERTIFY)) return 0;
    if (m->wanted_object[r] < 1 || m->wanted_object[r] > m->objects) return 0;
    if (m->wants[r] == CERTIFY && !m->writes[m->wanted_object[r]][r]) return 0;
    return may(m, m->wants[r], r, m->wanted_object[r]) && !held_already(m, m->wants[r], r, m->wanted_object[r]);
}

/* Whether so many read locks and write locks may stand on one object, the write lock certified or not. */
static int locks_fit(int version, int read_locks, int write_locks, int certified)
{
    if (version == 1) return !certified && (write_locks == 0 || (write_locks == 1 && read_locks == 0));
    if (certified) return write_locks == 1 && read_locks == 0;
    return write_locks <= 1;
}

static int object_fits(const model *m, int o)
{
    int r, read_locks = 0, write_locks = 0;
    for (r = 1; r <= 64; r++) {
        if ((m->may_read[o][r] || m->may_write[o][r]) && (o > m->objects || r > m->jobs)) return 0;
        if (m->reads[o][r] && !(m->active[r] && m->may_read[o][r])) return 0;
        if (m->writes[o][r] && !(m->active[r] && m->may_write[o][r])) return 0;
        if (m->reads[o][r] && m->writes[o][r]) return 0;
        read_locks += m->reads[o][r];
        write_locks += m->writes[o][r];
    }
    return locks_fit(m->version, read_locks, write_locks, m->certified[o]);
}

int model_fits(const model *m)
{
    int i;
    if (m->version != 1 && m->version != 2) return 0;
    if (m->processors < 1 || m->processors > 8 || m->jobs < 1 || m->jobs > 64 || m->objects < 1 || m->objects > 128) return 0;
    for (i = 1; i <= 64; i++)
        if (!job_fits(m, i)) return 0;
    for (i = 1; i <= 128; i++)
        if (!object_fits(m, i)) return 0;
    return 1;
}

int model_carries_truth(const model *m)
{
    return m->holder == most_urgent_holder(m);
}

/* Whether some holder more urgent than this one is not more urgent than the weight, which this one holds. */
static int outweighs(int weight, const char *is_holder, int rank)
{
    int r;
    for (r = 1; r < rank; r++)
        if (is_holder[r] && !(r < weight)) return 1;
    return 0;
}

int model_disorder(const model *m)
{
    char is_holder[65];
    int r, o;
    for (r = 1; r <= m->jobs; r++) is_holder[r] = (char)holds(m, r);
    for (r = 1; r <= m->jobs; r++)
        for (o = 1; o <= m->objects; o++) {
            int mode = held_mode(m, r, o);
            if (mode && outweighs(weight_of(m, mode, r, o), is_holder, r)) return mode;
        }
    return 0;
}

int model_well_formed(const model *m)
{
    return model_fits(m) && model_carries_truth(m) && !model_disorder(m);
}

/* ---- Granting, naming, waking */

/* A lock that is held: its mode, what it weighs, by whom and on what. */
typedef struct {
    int weight, holder, object, mode;
} lock;

/* Of the locks of other jobs the one that a waiting job names: the most urgent weight, then the lowest rank, then the lowest object. */
static lock named(const model *m, int rank)
{
    lock best = {1000, 0, 0, 0};
    int h, o;
    for (h = 1; h <= m->jobs; h++)
        for (o = 1; o <= m->objects; o++) {
            lock l = {0, h, o, 0};
            l.mode = held_mode(m, h, o);
            if (h == rank || !l.mode) continue;
            l.weight = weight_of(m, l.mode, h, o);
            if (l.weight < best.weight) best = l;
        }
    return best;
}

static int passes(const model *m, int rank)
{
    return rank < named(m, rank).weight;
}

/* Whether a request meets a lock on its object that it does not go together with: on version 2 by table 1 of source document 004. */
static int conflict(int version, int requested, int held)
{
    static const char together[4][4] = {{0, 0, 0, 0}, {0, 1, 1, 0}, {0, 1, 0, 0}, {0, 0, 0, 0}}; /* by the requested mode, then the held one */
    if (version == 1) return requested == WRITE || held == WRITE;
    return !together[requested][held];
}

static int reason_of(const model *m, int mode, int object, lock l)
{
    if (l.object == object && conflict(m->version, mode, l.mode)) return VONGSELIK_CONFLICT;
    if (l.mode == READ && l.holder < write_ceiling(m, l.object)) return VONGSELIK_CAP;
    return VONGSELIK_CEILING;
}

static void give(model *m, int mode, int rank, int object)
{
    m->wants[rank] = m->wanted_object[rank] = 0;
    if (mode == READ) {
        m->reads[object][rank] = 1;
    } else if (mode == WRITE) {
        m->reads[object][rank] = 0;
        m->writes[object][rank] = 1;
    } else {
        m->certified[object] = 1;
    }
}

/* Gives the most urgent waiting job whose request passes its lock. Answers its rank, 0 if there is none. */
static int wake(model *m)
{
    int r;
    for (r = 1; r <= m->jobs; r++)
        if (waits(m, r) && passes(m, r)) {
            give(m, m->wants[r], r, m->wanted_object[r]);
            return r;
        }
    return 0;
}

/* ---- Events */

/* The mode of the lock that an event of this kind asks for, 0 if it asks for none. */
static int asked_mode(int kind)
{
    return kind == VONGSELIK_READ_LOCK ? READ : kind == VONGSELIK_WRITE_LOCK ? WRITE : kind == VONGSELIK_CERTIFY ? CERTIFY : 0;
}

/* Whether the event is one for a job that neither waits nor sleeps: kinds 2 to 5, 7 and 8. */
static int needs_awake(int kind)
{
    return kind != VONGSELIK_START && kind != VONGSELIK_ABANDON && kind != VONGSELIK_WAKE;
}

static int event_refusal(const model *m, int kind, int rank, int object)
{
    int mode = asked_mode(kind), on_object = mode || kind == VONGSELIK_UNLOCK;
    if (!model_well_formed(m)) return 8;
    if (kind < 1 || kind > 9 || (kind == VONGSELIK_CERTIFY && m->version == 1)) return 9;
    if (rank < 1 || rank > m->jobs) return 10;
    if (on_object ? object < 1 || object > m->objects : object != 0) return 11;
    if (kind == VONGSELIK_START && m->active[rank]) return 12;
    if (kind != VONGSELIK_START && !m->active[rank]) return 13;
    if (needs_awake(kind) && waits(m, rank)) return 14;
    if (needs_awake(kind) && m->sleeping[rank]) return 26;
    if (kind == VONGSELIK_WAKE && !m->sleeping[rank]) return 27;
    if (kind == VONGSELIK_FINISH && m->version == 2 && holds_uncertified(m, rank)) return 25;
    if (mode && m->unlocked[rank]) return 15;
    if (mode && !may(m, mode, rank, object)) return 16;
    if (mode && held_already(m, mode, rank, object)) return 17;
    if (mode == CERTIFY && !m->writes[object][rank]) return 24;
    if (kind == VONGSELIK_UNLOCK && !m->reads[object][rank] && !m->writes[object][rank]) return 18;
    if (kind == VONGSELIK_UNLOCK && m->writes[object][rank]) return 21;
    return 0;
}

static vongselik_answer request(model *m, int mode, int rank, int object)
{
    vongselik_answer a = {VONGSELIK_GRANTED, 0, 0, 0, 0, 0};
    lock l = named(m, rank);
    if (rank < l.weight) {
        give(m, mode, rank, object);
        return a;
    }
    m->wants[rank] = mode;
    m->wanted_object[rank] = object;
    a.answer = VONGSELIK_WAITS;
    a.holder = (uint8_t)l.holder;
    a.object = (uint8_t)l.object;
    a.reason = (uint8_t)reason_of(m, mode, object, l);
    return a;
}

static void unlock(model *m, int rank, int object)
{
    m->reads[object][rank] = 0;
    m->unlocked[rank] = 1;
}

void model_end_run(model *m, int rank)
{
    int o;
    m->active[rank] = m->unlocked[rank] = m->sleeping[rank] = 0;
    m->wants[rank] = m->wanted_object[rank] = 0;
    for (o = 1; o <= 128; o++) {
        if (m->writes[o][rank]) m->certified[o] = 0;
        m->reads[o][rank] = m->writes[o][rank] = 0;
    }
}

/* An event that is not refused, but for the carried rank. */
static vongselik_answer perform(model *m, int kind, int rank, int object)
{
    vongselik_answer a = {VONGSELIK_DONE, 0, 0, 0, 0, 0};
    if (asked_mode(kind)) return request(m, asked_mode(kind), rank, object);
    switch (kind) {
    case VONGSELIK_START: m->active[rank] = 1; return a;
    case VONGSELIK_SLEEP: m->sleeping[rank] = 1; return a;
    case VONGSELIK_WAKE: m->sleeping[rank] = 0; return a;
    case VONGSELIK_UNLOCK: unlock(m, rank, object); break;
    default: model_end_run(m, rank); break;
    }
    a.woken = (uint8_t)wake(m);
    return a;
}

vongselik_answer model_event(model *m, int kind, int rank, int object)
{
    vongselik_answer a = {VONGSELIK_REFUSED, 0, 0, 0, 0, 0};
    int refusal = event_refusal(m, kind, rank, object);
    if (refusal) {
        a.refusal = (uint8_t)refusal;
        return a;
    }
    a = perform(m, kind, rank, object);
    m->holder = most_urgent_holder(m);
    return a;
}

/* ---- Questions */

static int job_refusal(const model *m, int rank)
{
    if (!model_well_formed(m)) return 8;
    if (rank < 1 || rank > m->jobs) return 10;
    return m->active[rank] ? 0 : 13;
}

/* The lock that a job names, of holder 0 if it names nobody. */
static lock named_by(const model *m, int rank)
{
    lock none = {0, 0, 0, 0};
    return waits(m, rank) && !passes(m, rank) ? named(m, rank) : none;
}

/* What each job names, by rank. */
typedef struct {
    lock by[65];
} names;

static names all_names(const model *m)
{
    names n;
    int r;
    for (r = 1; r <= 64; r++) n.by[r] = named_by(m, r);
    return n;
}

static int inherited(const names *n, int rank)
{
    int r;
    for (r = 1; r < rank; r++)
        if (n->by[r].holder == rank) return r;
    return rank;
}

/* The rank that the processor runs, 0 if it is idle. */
static int running(const model *m, const names *n, int processor)
{
    int r, best = 1000, rank = 0;
    for (r = 1; r <= m->jobs; r++)
        if (m->processor[r] == processor && m->active[r] && !waits(m, r) && !m->sleeping[r] && inherited(n, r) < best) {
            best = inherited(n, r);
            rank = r;
        }
    return rank;
}

int model_inherited_rank(const model *m, int rank, int *value)
{
    int refusal = job_refusal(m, rank);
    names n;
    if (refusal) return refusal;
    n = all_names(m);
    *value = inherited(&n, rank);
    return 0;
}

int model_named_lock(const model *m, int rank, int *holder, int *object)
{
    int refusal = job_refusal(m, rank);
    if (!refusal) {
        *holder = named_by(m, rank).holder;
        *object = named_by(m, rank).object;
    }
    return refusal;
}

int model_ceilings(const model *m, int object, int *write_value, int *absolute_value)
{
    if (!model_well_formed(m)) return 8;
    if (object < 1 || object > m->objects) return 11;
    *write_value = write_ceiling(m, object);
    *absolute_value = absolute_ceiling(m, object);
    return 0;
}

int model_running(const model *m, int processor, int *rank)
{
    names n;
    if (!model_well_formed(m)) return 8;
    if (processor >= m->processors) return 19;
    n = all_names(m);
    *rank = running(m, &n, processor);
    return 0;
}

/* ---- The state page */

/* Lays the line of an active job, and a null character behind it. Answers the line's length. */
static int lay_line(const model *m, const names *n, int rank, char *line)
{
    char holder[4] = "", object[4] = "", letter = 'I';
    if (running(m, n, m->processor[rank]) == rank) letter = 'R';
    if (waits(m, rank)) letter = 'W';
    if (m->sleeping[rank]) letter = 'Z';
    if (n->by[rank].holder) {
        sprintf(holder, "%d", n->by[rank].holder);
        sprintf(object, "%d", n->by[rank].object);
    }
    return sprintf(line, "%3d %2d %c %3d %3s %3s\n", rank, m->processor[rank], letter, inherited(n, rank), holder, object);
}

int model_page(const model *m, uint8_t *buffer, size_t size, size_t *length)
{
    char page[21 * 64 + 1];
    size_t end = 0;
    names n;
    int r;
    if (!model_well_formed(m)) return 8;
    n = all_names(m);
    for (r = 1; r <= m->jobs; r++)
        if (m->active[r]) end += (size_t)lay_line(m, &n, r, page + end);
    if (size < end) return 22;
    memcpy(buffer, page, end);
    *length = end;
    return 0;
}

/* ---- A test load */

/* Takes a step from the number s. Answers the new s divided by 2^24, rounded down. */
static int step(uint64_t *s)
{
    *s = (1664525 * *s + 1013904223) % 4294967296;
    return (int)(*s / 16777216);
}

int model_make_events(const model *m, uint32_t *seed, size_t count, uint8_t *buffer, size_t size)
{
    uint64_t s = *seed;
    size_t i;
    if (!model_well_formed(m)) return 8;
    if (size / 3 < count) return 23; /* size < 3 * count, where 3 * count may be too large for a size_t */
    for (i = 0; i < count; i++) {
        int kind = 1 + step(&s) % 6;
        int rank = 1 + step(&s) % m->jobs;
        int object = 1 + step(&s) % m->objects;
        if (kind == 1 || kind == 5 || kind == 6) object = 0;
        buffer[3 * i] = (uint8_t)kind;
        buffer[3 * i + 1] = (uint8_t)rank;
        buffer[3 * i + 2] = (uint8_t)object;
    }
    *seed = (uint32_t)s;
    return 0;
}

/* ---- Tables */

/* The refusals 1 to 4 of header and lengths. */
static int layout_refusal(const uint8_t *b, size_t size)
{
    size_t count;
    if (size < 8) return 1;
    if (b[0] != 'J' || b[1] != 'O' || b[2] != 'B') return 2;
    if (b[3] != 0 || (b[4] != 1 && b[4] != 2)) return 3;
    if (b[5] < 1 || b[5] > 8 || b[6] < 1 || b[6] > 64 || b[7] < 1 || b[7] > 128) return 4;
    if (size < (size_t)10 + b[6]) return 1;
    count = (size_t)b[8 + b[6]] * 256 + b[9 + b[6]];
    if (count > 8192) return 4;
    return size < 10 + b[6] + 3 * count ? 1 : 0;
}

static int table_refusal(const uint8_t *b, size_t size)
{
    const uint8_t *e, *end;
    int r, refusal = layout_refusal(b, size), rank = 0, object = 0;
    if (refusal) return refusal;
    for (r = 1; r <= b[6]; r++)
        if (b[7 + r] >= b[5]) return 5;
    e = b + 10 + b[6];
    end = e + 3 * ((size_t)b[8 + b[6]] * 256 + b[9 + b[6]]);
    for (; e < end; e += 3) {
        if (e[0] < 1 || e[0] > b[6] || e[1] < 1 || e[1] > b[7] || e[2] < 1 || e[2] > 3) return 6;
        if (e[0] < rank || (e[0] == rank && e[1] <= object)) return 7;
        rank = e[0];
        object = e[1];
    }
    return 0;
}

int model_read_table(model *m, const uint8_t *b, size_t size, size_t *used)
{
    size_t i, count;
    int r, refusal = table_refusal(b, size);
    if (refusal) return refusal;
    memset(m, 0, sizeof *m);
    m->version = b[4];
    m->processors = b[5];
    m->jobs = b[6];
    m->objects = b[7];
    for (r = 1; r <= m->jobs; r++) m->processor[r] = b[7 + r];
    count = (size_t)b[8 + b[6]] * 256 + b[9 + b[6]];
    for (i = 0; i < count; i++) {
        const uint8_t *e = b + 10 + b[6] + 3 * i;
        if (e[2] != 2) m->may_read[e[1]][e[0]] = 1;
        if (e[2] != 1) m->may_write[e[1]][e[0]] = 1;
    }
    *used = 10 + b[6] + 3 * count;
    return 0;
}

int model_job_entries(const uint8_t *b, size_t size, int rank, size_t *start, size_t *length)
{
    size_t i, count;
    int refusal = table_refusal(b, size);
    if (refusal) return refusal;
    if (rank < 1 || rank > b[6]) return 10;
    count = (size_t)b[8 + b[6]] * 256 + b[9 + b[6]];
    *start = (size_t)10 + b[6];
    *length = 0;
    for (i = 0; i < count; i++) {
        int r = b[10 + b[6] + 3 * i];
        if (r < rank) *start += 3;
        if (r == rank) *length += 3;
    }
    return 0;
}

int model_write_table(const model *m, uint8_t *buffer, size_t size, size_t *length)
{
    uint8_t b[VONGSELIK_LONGEST_TABLE] = {'J', 'O', 'B', 0};
    size_t n = (size_t)10 + m->jobs, count;
    int r, o;
    if (!model_well_formed(m)) return 8;
    b[4] = (uint8_t)m->version;
    b[5] = (uint8_t)m->processors;
    b[6] = (uint8_t)m->jobs;
    b[7] = (uint8_t)m->objects;
    for (r = 1; r <= m->jobs; r++) b[7 + r] = (uint8_t)m->processor[r];
    for (r = 1; r <= m->jobs; r++)
        for (o = 1; o <= m->objects; o++) {
            int mode = m->may_read[o][r] + 2 * m->may_write[o][r];
            if (!mode) continue;
            b[n++] = (uint8_t)r;
            b[n++] = (uint8_t)o;
            b[n++] = (uint8_t)mode;
        }
    if (size < n) return 20;
    count = (n - 10 - m->jobs) / 3;
    b[8 + m->jobs] = (uint8_t)(count / 256);
    b[9 + m->jobs] = (uint8_t)(count % 256);
    memcpy(buffer, b, n);
    *length = n;
    return 0;
}
