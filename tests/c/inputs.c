/* Random tables, events and states: see inputs.h. */
#include "inputs.h"

#include <string.h>

static uint64_t seed;

void begin_inputs(unsigned long sequence, int table)
{
    seed = 88172645463325252u + (uint64_t)sequence * 1000003 + (uint64_t)table * 7919;
}

int below(int n)
{
    seed ^= seed << 13;
    seed ^= seed >> 7;
    seed ^= seed << 17;
    return (int)((seed >> 20) % (unsigned)n);
}

int about(int n)
{
    return below(25) ? 1 + below(n) : below(256);
}

static uint64_t any_word(void)
{
    below(2);
    return seed * 2685821657736338717u;
}

/* ---- Tables */

size_t make_table(uint8_t *b)
{
    static const int most_objects[] = {3, 8, 20, 128};
    int size = below(4), r, o, density = 5 + below(90), writing = below(3) ? 1 : 8, only_read;
    size_t n, count = 0;
    memcpy(b, "JOB\0", 4);
    b[4] = (uint8_t)(1 + below(2));
    b[5] = (uint8_t)(1 + below(8));
    b[6] = (uint8_t)(size == 3 && !below(4) ? 64 : 1 + below(size == 3 ? 64 : 10));
    b[7] = (uint8_t)(1 + below(most_objects[size]));
    for (r = 1; r <= b[6]; r++) b[7 + r] = (uint8_t)below(b[5]);
    only_read = below(2) ? 0 : below(b[6]); /* so many of the most urgent jobs */
    n = (size_t)10 + b[6];
    for (r = 1; r <= b[6]; r++)
        for (o = 1; o <= b[7]; o++)
            if (below(100) < density) {
                b[n++] = (uint8_t)r;
                b[n++] = (uint8_t)o;
                b[n++] = (uint8_t)(r <= only_read || below(writing) ? 1 : 1 + below(3)); /* in a third of the tables one entry in eight may write */
                count++;
            }
    b[8 + b[6]] = (uint8_t)(count / 256);
    b[9 + b[6]] = (uint8_t)(count % 256);
    for (r = below(8); r > 0; r--) b[n++] = (uint8_t)below(256);
    return n;
}

size_t spoil_table(uint8_t *b, size_t n)
{
    int times = 1 + below(3);
    size_t fields = n < 14 ? n : 14;
    if (below(3) == 0) return (size_t)below((int)n + 1);
    for (; times > 0 && n > 0; times--) {
        size_t at = (size_t)below(below(2) ? (int)fields : (int)n);
        b[at] = (uint8_t)(below(2) ? below(256) : b[at] + 1 - 2 * below(2));
    }
    return n;
}

/* ---- Events */

/* Some object in whose set the rank, 1 to 64, is; 0 if there is none. */
static int object_in(const uint64_t *sets, int rank)
{
    int i, first = below(128);
    for (i = first; i < first + 128; i++)
        if (sets[i % 128] >> (rank - 1) & 1) return i % 128 + 1;
    return 0;
}

/* The ranks that hold a write lock on the object at index o which is not certified. */
static uint64_t uncertified(const vongselik_state *s, int o)
{
    return s->certified[o / 64] >> o % 64 & 1 ? 0 : s->writers[o];
}

/* Some object on which the rank holds a write lock that is not certified; 0 if there is none. */
static int uncertified_object(const vongselik_state *s, int rank)
{
    uint64_t sets[128];
    int o;
    for (o = 0; o < 128; o++) sets[o] = uncertified(s, o);
    return object_in(sets, rank);
}

/* Some object that the rank may read and on which a write lock is not certified; 0 if there is none. */
static int working_object(const vongselik_state *s, int rank)
{
    uint64_t sets[128];
    int o;
    for (o = 0; o < 128; o++) sets[o] = uncertified(s, o) ? s->may_read[o] : 0;
    return object_in(sets, rank);
}

/* Some object that the rank may write and that is certified; 0 if there is none. */
static int certified_object(const vongselik_state *s, int rank)
{
    uint64_t sets[128];
    int o;
    for (o = 0; o < 128; o++) sets[o] = s->certified[o / 64] >> o % 64 & 1 ? s->may_write[o] : 0;
    return object_in(sets, rank);
}

/* An object for which the rank may send an event of this kind, more often than not; 0 if there is none. */
static int likely_object(const vongselik_state *s, int rank, int kind)
{
    int working = kind == VONGSELIK_READ_LOCK && below(2) ? working_object(s, rank) : 0;
    if (working) return working;
    if (kind == VONGSELIK_READ_LOCK) return object_in(s->may_read, rank);
    if (kind == VONGSELIK_WRITE_LOCK) return object_in(s->may_write, rank);
    if (kind == VONGSELIK_CERTIFY && below(4)) return below(8) ? uncertified_object(s, rank) : certified_object(s, rank);
    return object_in(below(2) ? s->readers : s->writers, rank);
}

/* A kind from 1 to 9, seldom a certify on version 1, a sleep or a wake; or now and then any, with 0, 10 and 11 often. */
static int any_kind(const vongselik_state *s)
{
    if (!below(20)) return below(below(2) ? 12 : 256);
    if (!below(8)) return VONGSELIK_SLEEP + below(2);
    return 1 + below(s->version == 2 || !below(8) ? 7 : 6);
}

/* A kind that the rank may send, more often than not, or the given one. A sleeper is most often woken; an unlock, a finish, an abandonment or, on version 2, a
 * certify of one comes at times. On version 2 write locks are often certified, in the place of a finish most often. */
static int likely_kind(const vongselik_state *s, int rank, int kind)
{
    int waits = s->request[rank - 1] != 0, sleeps = (int)(s->sleeping >> (rank - 1) & 1);
    int to_certify = s->version == 2 && !waits && uncertified_object(s, rank);
    if (waits && below(2)) return VONGSELIK_FINISH + below(2);
    if (sleeps && below(4)) return below(3) ? VONGSELIK_WAKE : VONGSELIK_UNLOCK + below(s->version == 2 ? 4 : 3);
    if (below(3)) {
        if (!(s->active >> (rank - 1) & 1)) return VONGSELIK_START;
        if (to_certify && below(3) == 0) return VONGSELIK_CERTIFY;
        if (below(3)) return VONGSELIK_READ_LOCK + below(2);
    }
    return to_certify && kind == VONGSELIK_FINISH && below(3) ? VONGSELIK_CERTIFY : kind;
}

/* A rank that does not wait, more often than not. */
static int likely_rank(const vongselik_state *s)
{
    int rank = about(s->jobs ? s->jobs : 1), tries;
    for (tries = 0; tries < 2 && rank >= 1 && rank <= 64 && s->request[rank - 1]; tries++) rank = about(s->jobs ? s->jobs : 1);
    return rank;
}

event any_event(const vongselik_state *s)
{
    int rank = likely_rank(s), kind = any_kind(s), object;
    int known = rank >= 1 && rank <= 64;
    event e;
    if (known) kind = likely_kind(s, rank, kind);
    object = below(30) ? 0 : below(256);
    if ((kind >= 2 && kind <= 4) || kind == VONGSELIK_CERTIFY) {
        object = known && below(6) ? likely_object(s, rank, kind) : 0;
        if (!object) object = about(s->objects ? s->objects : 1);
    }
    e.kind = (uint8_t)kind;
    e.rank = (uint8_t)rank;
    e.object = (uint8_t)object;
    return e;
}

/* ---- Holders */

/* The jobs that hold locks. */
static uint64_t lock_holders(const vongselik_state *s)
{
    uint64_t set = 0;
    int o;
    for (o = 0; o < 128; o++) set |= s->readers[o] | s->writers[o];
    return set;
}

/* The most urgent rank of the set, 65 if it is empty. */
static int first_of(uint64_t set)
{
    int rank = 1;
    while (rank <= 64 && !(set >> (rank - 1) & 1)) rank++;
    return rank;
}

/* The true rank to carry. */
static void carry_truth(vongselik_state *s)
{
    s->holder = (uint8_t)(first_of(lock_holders(s)) % 65);
}

/* What the lock of the rank on the object at index o weighs. */
static int weight_at(const vongselik_state *s, int rank, int o)
{
    int write = first_of(s->may_write[o]), certified = (int)(s->certified[o / 64] >> o % 64 & 1);
    if (!(s->writers[o] >> (rank - 1) & 1)) return write < rank ? write : rank;
    return s->version == 2 && !certified ? write : first_of(s->may_read[o] | s->may_write[o]);
}

/* Takes the rank's lock on the object away; of a certify lock the mark alone, if the write lock may stay behind the holder before. */
static void take_lock(vongselik_state *s, int rank, int o, int before)
{
    uint64_t bit = (uint64_t)1 << (rank - 1);
    if (s->writers[o] & bit) s->certified[o / 64] &= ~((uint64_t)1 << o % 64);
    if (s->writers[o] & bit && before < weight_at(s, rank, o)) return;
    s->readers[o] &= ~bit;
    s->writers[o] &= ~bit;
}

/* Puts the holders in order: from the most urgent on, takes away each lock than whose weight the holder before is not more urgent. */
static void put_in_order(vongselik_state *s)
{
    int before = 0, rank, o;
    for (rank = 1; rank <= s->jobs; rank++) {
        for (o = 0; o < s->objects; o++)
            if ((s->readers[o] | s->writers[o]) >> (rank - 1) & 1 && before >= weight_at(s, rank, o)) take_lock(s, rank, o, before);
        if (lock_holders(s) >> (rank - 1) & 1) before = rank;
    }
}

/* ---- States */

/* Locks of these jobs on the object at index o: of a writer or of readers; on version 2 of both, or of a writer that has certified it. */
static void strew_locks(vongselik_state *s, int o, uint64_t holders)
{
    uint64_t writer = s->may_write[o] & holders, certified = 0;
    if (writer & (writer - 1)) writer &= (uint64_t)1 << below(s->jobs);
    s->writers[o] = below(3) ? 0 : writer;
    if (s->version == 2 && s->writers[o]) certified = (uint64_t)below(2);
    s->certified[o / 64] |= certified << o % 64;
    if (certified || (s->version == 1 && s->writers[o]) || below(2)) return;
    s->readers[o] = s->may_read[o] & holders & ~s->writers[o] & any_word();
    if (below(2)) s->readers[o] &= any_word() & any_word();
}

/* A request of the job at index r, an active one that has not unlocked, or none; on version 2 often to certify. */
static void strew_request(vongselik_state *s, int r)
{
    int object = below(s->objects), mode = 1 + below(2), to_certify = s->version == 2 ? uncertified_object(s, r + 1) : 0;
    uint64_t right = mode == 1 ? s->may_read[object] & ~s->readers[object] : s->may_write[object];
    if (to_certify && below(2)) s->request[r] = (uint16_t)(3 * 256 + to_certify);
    else if (below(2) && (right & ~s->writers[object]) >> r & 1) s->request[r] = (uint16_t)(mode * 256 + object + 1);
}

/* The ranks that have a request. */
static uint64_t waiting(const vongselik_state *s)
{
    uint64_t set = 0;
    int r;
    for (r = 0; r < 64; r++) set |= (uint64_t)(s->request[r] != 0) << r;
    return set;
}

void strew(vongselik_state *s)
{
    int o, r, spaces = below(3) ? 1 : 1 + below(s->objects); /* how far apart the objects are at most that may be locked */
    uint64_t all = s->jobs == 64 ? ~(uint64_t)0 : ((uint64_t)1 << s->jobs) - 1, holders;
    s->active = any_word() & all;
    holders = below(4) ? s->active : s->active & (uint64_t)1 << below(s->jobs);
    s->unlocked = below(2) ? 0 : any_word() & any_word() & s->active;
    memset(s->readers, 0, sizeof s->readers);
    memset(s->writers, 0, sizeof s->writers);
    memset(s->certified, 0, sizeof s->certified);
    memset(s->request, 0, sizeof s->request);
    for (o = below(spaces); o < s->objects; o += 1 + below(spaces)) strew_locks(s, o, holders);
    if (below(4)) put_in_order(s);
    carry_truth(s);
    for (r = 0; r < s->jobs; r++)
        if ((s->active & ~s->unlocked) >> r & 1) strew_request(s, r);
    s->sleeping = below(2) ? 0 : any_word() & s->active & ~waiting(s);
}

/* The index of an object: of any, of one in the table, or of one with a write lock if there is one in it. */
static int index_of_object(const vongselik_state *s)
{
    int in_table = s->objects && s->objects <= 128 ? s->objects : 128, first = below(below(4) ? in_table : 128), i;
    if (below(2))
        for (i = first; i < first + in_table; i++)
            if (s->writers[i % in_table]) return i % in_table;
    return first;
}

/* The index of a job: of any, of one in the table, or of one in the set if there is one in it. */
static int index_of_job(const vongselik_state *s, uint64_t set)
{
    int first = below(below(4) && s->jobs && s->jobs <= 64 ? s->jobs : 64), i;
    if (below(2))
        for (i = first; i < first + 64; i++)
            if (set >> i % 64 & 1) return i % 64;
    return first;
}

/* Some rank of the set, 0 if it is empty. */
static int rank_in(uint64_t set)
{
    int first = below(64), i;
    for (i = first; i < first + 64; i++)
        if (set >> i % 64 & 1) return i % 64 + 1;
    return 0;
}

/* A wrong rank to carry, most often: none, a holder that is not the most urgent one, a rank that holds nothing, or one above the job count. */
static int wrong_holder(const vongselik_state *s)
{
    uint64_t holders = lock_holders(s), in_table = s->jobs < 64 ? ((uint64_t)1 << s->jobs) - 1 : ~(uint64_t)0;
    switch (below(8)) {
    case 0: return 0;
    case 1: return s->jobs + 1 + below(3);
    case 2: return below(256);
    case 3:
    case 4: return rank_in(in_table & ~holders);
    default: return rank_in(holders & (holders - 1));
    }
}

/* A lock more on some object, of an active job that may have it beside the others there, and the true rank to carry. It breaks the order of the holders more
 * often than not. */
static void add_lock(vongselik_state *s)
{
    int o = below(s->objects && s->objects <= 128 ? s->objects : 128), mode = 1 + below(2), rank;
    uint64_t others = s->version == 2 ? 0 : s->readers[o], right = mode == 1 ? s->may_read[o] : s->may_write[o];
    if (s->certified[o / 64] >> o % 64 & 1 || (s->writers[o] && (mode == 2 || s->version != 2)) || (mode == 2 && others)) return;
    rank = rank_in(s->active & right & ~s->readers[o] & ~s->writers[o]);
    if (!rank || s->request[rank - 1]) return;
    if (mode == 1) s->readers[o] |= (uint64_t)1 << (rank - 1);
    else s->writers[o] |= (uint64_t)1 << (rank - 1);
    carry_truth(s);
}

/* Certifies some write lock of version 2 that stands alone, if there is one. It may break the order of the holders. */
static void certify_lock(vongselik_state *s)
{
    int first = below(128), i;
    for (i = first; i < first + 128 && s->version == 2; i++) {
        int o = i % 128;
        if (!uncertified(s, o) || s->readers[o]) continue;
        s->certified[o / 64] |= (uint64_t)1 << o % 64;
        return;
    }
}

void mutate_holders(vongselik_state *s)
{
    int times = 1 + below(4);
    if (below(2)) {
        s->holder = (uint8_t)wrong_holder(s);
        return;
    }
    for (; times > 0; times--) {
        if (below(2)) add_lock(s);
        else certify_lock(s);
    }
}

/* One change somewhere in a state. */
static void mutate_once(vongselik_state *s)
{
    int o = index_of_object(s), r = index_of_job(s, below(3) ? s->active & (s->may_read[o] | s->may_write[o]) : s->writers[o]);
    uint64_t bit = (uint64_t)1 << r;
    switch (below(22)) {
    case 0: s->processors = (uint8_t)(below(2) ? below(12) : below(256)); break;
    case 1: s->jobs = (uint8_t)(below(2) ? s->jobs + 1 - 2 * below(2) : below(256)); break;
    case 2: s->objects = (uint8_t)(below(2) ? s->objects + 1 - 2 * below(2) : below(256)); break;
    case 3: s->processor_of[r] = (uint8_t)below(10); break;
    case 4: s->may_read[o] ^= bit; break;
    case 5: s->may_write[o] ^= bit; break;
    case 6: s->active ^= bit; break;
    case 7: s->unlocked ^= bit; break;
    case 8: s->readers[o] ^= bit; break;
    case 9: s->writers[o] ^= bit; break;
    case 10: s->request[r] = (uint16_t)(below(5) * 256 + (below(2) ? o + 1 : below(140))); break;
    case 11: s->version = (uint8_t)(below(3) ? 3 - s->version : below(256)); break;
    case 12: s->version = (uint8_t)below(4); break;
    case 13: s->certified[o / 64] ^= (uint64_t)1 << o % 64; break;
    case 14: s->sleeping ^= bit; break;
    case 15: s->sleeping ^= (uint64_t)1 << index_of_job(s, below(2) ? waiting(s) : ~s->active); break;
    case 16: s->request[r] = 0; break;
    default: mutate_holders(s); break;
    }
}

void mutate(vongselik_state *s, int times)
{
    int i;
    for (i = 0; i < times; i++) mutate_once(s);
    if (times && below(2)) carry_truth(s);
}

void fill_with_noise(vongselik_state *s)
{
    size_t i;
    for (i = 0; i < sizeof *s; i++) ((unsigned char *)s)[i] = (unsigned char)below(256);
}
