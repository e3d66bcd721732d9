/* Compares the library with the model (model.c) on random tables, events, states (inputs.c), questions, state pages and test loads (compare_loads.c), lists
 * of events with single events too, and state pages with the questions; and checks that finished runs are as if one by one (arrows.c), and what the carried
 * rank has to do with answers and names (holders.c). Prints which answers came (occurred.c), how many calls agreed and how many did not.
 * Usage: compare [TABLES [EVENTS [SEED]]]: 1,000 tables, 220 events on each. Each event is one call; so is each table, part, state and question,
 * each list of events, once for every place where it is cut, each state page, once for every length of the buffer, each line of it beside the questions,
 * each ceiling beside nobody's, each test load, once for every length of the buffer and for every place where it is split, each event of it that is sent,
 * each pair of locks in conflict, each arrow, each thing that is said of the carried rank after an event or of a waiting job, and each name of the header. */
#include <stdio.h>
#include <stdlib.h>
#include <string.h>

#include "arrows.h"
#include "checks.h"
#include "compare_loads.h"
#include "holders.h"
#include "inputs.h"
#include "model.h"
#include "occurred.h"
#include "vongselik.h"

/* ---- The header's names */

/* Each kind, answer, reason and refusal in the order of its number, and the limits. */
static void compare_names(void)
{
    static const int kinds[] = {
        0, VONGSELIK_START, VONGSELIK_READ_LOCK, VONGSELIK_WRITE_LOCK, VONGSELIK_UNLOCK, VONGSELIK_FINISH, VONGSELIK_ABANDON, VONGSELIK_CERTIFY,
        VONGSELIK_SLEEP, VONGSELIK_WAKE};
    static const int answers[] = {0, VONGSELIK_GRANTED, VONGSELIK_WAITS, VONGSELIK_DONE, VONGSELIK_REFUSED};
    static const int reasons[] = {0, VONGSELIK_CONFLICT, VONGSELIK_CEILING, VONGSELIK_CAP};
    static const int refusals[] = {
        VONGSELIK_NOT_REFUSED, VONGSELIK_BYTES_END_EARLY, VONGSELIK_WRONG_MARK, VONGSELIK_WRONG_VERSION, VONGSELIK_COUNT_OUT_OF_RANGE,
        VONGSELIK_PROCESSOR_BYTE_TOO_LARGE, VONGSELIK_ENTRY_OUT_OF_RANGE, VONGSELIK_ENTRY_OUT_OF_ORDER, VONGSELIK_STATE_NOT_WELL_FORMED,
        VONGSELIK_UNKNOWN_KIND, VONGSELIK_RANK_OUT_OF_RANGE, VONGSELIK_OBJECT_OUT_OF_RANGE, VONGSELIK_ALREADY_ACTIVE, VONGSELIK_IDLE, VONGSELIK_WAITING,
        VONGSELIK_LOCK_AFTER_UNLOCK, VONGSELIK_NOT_DECLARED, VONGSELIK_ALREADY_HELD, VONGSELIK_NOT_HELD, VONGSELIK_NO_SUCH_PROCESSOR,
        VONGSELIK_BUFFER_TOO_SHORT, VONGSELIK_UNLOCK_OF_WRITE_LOCK, VONGSELIK_BUFFER_TOO_SHORT_FOR_PAGE, VONGSELIK_BUFFER_TOO_SHORT_FOR_EVENTS,
        VONGSELIK_CERTIFY_WITHOUT_WRITE_LOCK, VONGSELIK_FINISH_WITHOUT_CERTIFY, VONGSELIK_ASLEEP, VONGSELIK_NOT_ASLEEP};
    int i;
    for (i = 1; i <= 9; i++) check(kinds[i] == i, "a kind's number");
    for (i = 1; i <= 4; i++) check(answers[i] == i, "an answer's number");
    for (i = 1; i <= 3; i++) check(reasons[i] == i, "a reason's number");
    for (i = 0; i <= 27; i++) check(refusals[i] == i, "a refusal's number");
    check(VONGSELIK_MOST_JOBS == 64 && VONGSELIK_MOST_OBJECTS == 128 && VONGSELIK_MOST_PROCESSORS == 8, "a limit");
    check(VONGSELIK_LONGEST_TABLE == 10 + 64 + 3 * 8192 && VONGSELIK_LONGEST_PAGE == 64 * 21, "a limit");
    check(sizeof(vongselik_state) == 4336, "the length of a state");
}

/* Nobody's ceiling by the number of jobs in a state. */
static void compare_nobody(void)
{
    static const vongselik_state states[] = {{.jobs = 1}, {.jobs = 4}, {.jobs = 64}};
    static const int ceilings[] = {2, 5, 65};
    int i;
    for (i = 0; i < 3; i++) check(VONGSELIK_NOBODY(states + i) == ceilings[i], "nobody's ceiling by the number of jobs");
}

/* ---- Tables */

static void compare_reading(const uint8_t *bytes, size_t n, const vongselik_state *before)
{
    vongselik_state s = *before;
    model m;
    size_t used = 777, model_used = 777;
    int refusal, number;
    memset(&m, 0, sizeof m);
    refusal = model_read_table(&m, bytes, n, &model_used);
    number = vongselik_read_table(&s, bytes, n, &used);
    check(number == refusal && used == model_used && (refusal ? !memcmp(&s, before, sizeof s) : model_same(&m, &s)), "read_table");
}

static void compare_entries(const uint8_t *bytes, size_t n, int rank)
{
    size_t start = 0, length = 0, raw_start = 555, raw_length = 666;
    int refusal = model_job_entries(bytes, n, rank, &start, &length);
    int raw = vongselik_parts_job_entries(bytes, n, (uint8_t)rank, &raw_start, &raw_length);
    vongselik_entries e = vongselik_job_entries(bytes, n, (uint8_t)rank);
    check(e.refusal == refusal && e.start == start && e.length == length, "job_entries");
    check(raw == refusal && raw_start == (refusal ? 555 : start) && raw_length == (refusal ? 666 : length), "parts_job_entries");
}

static void compare_writing(const vongselik_state *s, const model *m, size_t size)
{
    static uint8_t ours[LONGEST], theirs[LONGEST];
    size_t length = 777, model_length = 777, i;
    int refusal, number;
    for (i = 0; i < LONGEST; i++) ours[i] = theirs[i] = (uint8_t)(i * 37 + 11);
    refusal = model_write_table(m, theirs, size, &model_length);
    number = vongselik_write_table(s, size ? ours : NULL, size, &length);
    check(number == refusal && length == model_length && !memcmp(ours, theirs, LONGEST), "write_table");
}

static void compare_tables(vongselik_state *s, uint8_t *bytes, size_t *used)
{
    static uint8_t spoilt[LONGEST];
    vongselik_state filled;
    size_t n = make_table(bytes);
    int i;
    memset(&filled, 0xa5, sizeof filled);
    compare_reading(bytes, n, &filled);
    for (i = 0; i < 4; i++) compare_entries(bytes, n, about(bytes[6]));
    for (i = 0; i < 8; i++) {
        size_t k;
        memcpy(spoilt, bytes, n);
        k = spoil_table(spoilt, n);
        compare_reading(spoilt, k, &filled);
        compare_entries(spoilt, k, about(bytes[6]));
    }
    compare_reading(NULL, 0, &filled);
    if (vongselik_read_table(s, bytes, n, used)) check(0, "a good table");
}

/* ---- Questions */

/* How many ceilings were nobody's with 64 jobs, and how many with fewer. */
static unsigned long nobody_of_64, nobody_of_fewer;

/* A ceiling that the library gave: nobody's exactly where the set of the ranks that are declared is empty. */
static void compare_ceiling(const vongselik_state *s, uint64_t declared, uint16_t ceiling)
{
    check((ceiling == VONGSELIK_NOBODY(s)) == (declared == 0), "nobody's ceiling");
    if (declared) return;
    if (s->jobs == 64) nobody_of_64++;
    else nobody_of_fewer++;
}

static void compare_ceilings(const vongselik_state *s, const model *m, int object)
{
    uint16_t write = 203, absolute = 204;
    int model_write = 203, model_absolute = 204;
    int refusal = model_ceilings(m, object, &model_write, &model_absolute);
    int number = vongselik_ceilings(s, (uint8_t)object, &write, &absolute);
    check(number == refusal && write == model_write && absolute == model_absolute, "ceilings");
    if (refusal) return;
    compare_ceiling(s, s->may_write[object - 1], write);
    compare_ceiling(s, s->may_read[object - 1] | s->may_write[object - 1], absolute);
}

/* The ceilings of the last object of a fresh state: as declared, with nobody to write it, and with nobody to read it either. */
static void compare_last_object(const vongselik_state *fresh)
{
    vongselik_state s = *fresh;
    model m;
    int last = s.objects, taken;
    for (taken = 0; taken <= 2; taken++) {
        if (taken >= 1) s.may_write[last - 1] = 0;
        if (taken >= 2) s.may_read[last - 1] = 0;
        model_from(&m, &s);
        compare_ceilings(&s, &m, last);
    }
}

/* Prints how many ceilings were nobody's, and checks that there were some. */
static void check_nobody_occurred(int tables)
{
    printf("%lu ceilings of nobody: %lu with 64 jobs, %lu with fewer\n", nobody_of_64 + nobody_of_fewer, nobody_of_64, nobody_of_fewer);
    if (tables >= ENOUGH) check(nobody_of_64 && nobody_of_fewer, "a ceiling that has to occur does not");
}

/* The state with no sleeping mark. */
static model awakened(const model *m)
{
    model awake = *m;
    memset(awake.sleeping, 0, sizeof awake.sleeping);
    return awake;
}

/* The question for the running job, of a processor of the table or now and then another. */
static void compare_running(const vongselik_state *s, const model *m)
{
    uint8_t rank = 201;
    int model_rank = 201, awake_rank = 201, processor = below(6) ? below(m->processors ? m->processors : 1) : below(256);
    int refusal = model_running(m, processor, &model_rank);
    int number = vongselik_running(s, (uint8_t)processor, &rank);
    model awake = awakened(m);
    check(number == refusal && rank == model_rank, "running");
    model_running(&awake, processor, &awake_rank);
    if (!refusal) count_running(s, model_rank, awake_rank);
}

static void compare_questions(const vongselik_state *s, const model *m, int all)
{
    uint8_t a = 201, b = 202;
    int x = 201, y = 202, rank = about(m->jobs ? m->jobs : 1), object = about(m->objects ? m->objects : 1), refusal, number;
    refusal = model_inherited_rank(m, rank, &x);
    number = vongselik_inherited_rank(s, (uint8_t)rank, &a);
    check(number == refusal && a == x, "inherited_rank");
    x = 201, y = 202, a = 201;
    refusal = model_named_lock(m, rank, &x, &y);
    number = vongselik_named_lock(s, (uint8_t)rank, &a, &b);
    check(number == refusal && a == x && b == y, "named_lock");
    compare_ceilings(s, m, object);
    if (all) compare_running(s, m);
}

/* ---- The state page */

/* The most that is lent for a page, the bytes before it and behind it, which nobody may write, and all of them. */
enum { LENT = VONGSELIK_LONGEST_PAGE + 100, AROUND = 30, PAGE_ROOM = AROUND + LENT + AROUND };

/* How many pages had no line, how many a line for each of 64 jobs, how many were refused by 22, how many lines were of a waiting job that names nobody, how
 * many of a sleeper, and how many of one that inherits a more urgent rank. */
static unsigned long empty_pages, longest_pages, short_buffers, naming_nobody, sleepers, inheriting_sleepers;

/* The page in a buffer of this length, compared with the model: the answer, the length, each byte of the buffer and around it, and that the state is
 * as it was. Answers the model's length, 0 where it refuses. */
static size_t compare_page_in(const vongselik_state *s, const model *m, size_t size)
{
    uint8_t ours[PAGE_ROOM], theirs[PAGE_ROOM];
    vongselik_state asked = *s;
    size_t length = 777, model_length = 777, i, first = (size_t)below(256);
    int refusal, number;
    for (i = 0; i < PAGE_ROOM; i++) ours[i] = theirs[i] = (uint8_t)(i * 37 + first);
    refusal = model_page(m, theirs + AROUND, size, &model_length);
    number = vongselik_page(&asked, size ? ours + AROUND : NULL, size, &length);
    check(number == refusal && length == model_length && !memcmp(ours, theirs, PAGE_ROOM) && !memcmp(&asked, s, sizeof asked), "page");
    if (refusal == 22) short_buffers++;
    if (refusal) return 0;
    if (model_length == 0) empty_pages++;
    if (model_length == VONGSELIK_LONGEST_PAGE) longest_pages++;
    return model_length;
}

/* A line of the page, field by field, beside what the questions answer for an active job. */
static void compare_line(const vongselik_state *s, uint8_t rank, const uint8_t *bytes)
{
    char line[22] = "", letter = 0, expected;
    uint8_t runs = 0, inherited = 0, holder = 0, object = 0;
    int fields, numbers[5] = {0, 0, 0, 0, 0}, waits = s->request[rank - 1] != 0, sleeps = (int)(s->sleeping >> (rank - 1) & 1);
    memcpy(line, bytes, 21);
    fields = sscanf(line, "%d %d %c %d %d %d", &numbers[0], &numbers[1], &letter, &numbers[2], &numbers[3], &numbers[4]);
    vongselik_running(s, s->processor_of[rank - 1], &runs);
    vongselik_inherited_rank(s, rank, &inherited);
    vongselik_named_lock(s, rank, &holder, &object);
    expected = runs == rank ? 'R' : waits ? 'W' : sleeps ? 'Z' : 'I';
    check(
        fields == (holder ? 6 : 4) && numbers[0] == rank && numbers[1] == s->processor_of[rank - 1] && letter == expected && numbers[2] == inherited
            && numbers[3] == holder && numbers[4] == object,
        "a line of the page and the questions");
    if (waits && !holder) naming_nobody++;
    if (sleeps) sleepers++;
    if (sleeps && inherited < rank) inheriting_sleepers++;
}

/* The page of the state in a buffer that is longer, as long, one byte too short, of any length, and of none; and each of its lines. */
static void compare_page(const vongselik_state *s, const model *m)
{
    uint8_t page[LENT] = {0};
    size_t length = compare_page_in(s, m, LENT), laid, line = 0;
    int rank;
    compare_page_in(s, m, length);
    compare_page_in(s, m, length ? length - 1 : 0);
    compare_page_in(s, m, (size_t)below(LENT));
    compare_page_in(s, m, 0);
    if (!model_well_formed(m)) return;
    vongselik_page(s, page, LENT, &laid);
    for (rank = 1; rank <= m->jobs; rank++)
        if (m->active[rank]) compare_line(s, (uint8_t)rank, page + 21 * line++);
}

/* The page of the state with every job started. */
static void compare_full_page(const vongselik_state *reached)
{
    vongselik_state s = *reached;
    model m;
    int rank;
    for (rank = 1; rank <= s.jobs; rank++) vongselik_event(&s, VONGSELIK_START, (uint8_t)rank, 0);
    model_from(&m, &s);
    compare_page(&s, &m);
}

/* Prints how many pages of each kind there were, and checks that there were some. */
static void check_pages_occurred(int tables)
{
    printf("state pages: %lu with no line, %lu with 64, %lu refused by 22; ", empty_pages, longest_pages, short_buffers);
    printf("%lu lines of a waiting job that names nobody, %lu of a sleeper, ", naming_nobody, sleepers);
    printf("%lu of one that inherits a rank\n", inheriting_sleepers);
    if (tables < ENOUGH) return;
    check(empty_pages && longest_pages && short_buffers && naming_nobody && sleepers && inheriting_sleepers, "a page that has to occur does not");
}

/* ---- Events */

/* An event on both, and the whole state compared after it. Gives the library's answer. */
static vongselik_answer compare_event(vongselik_state *s, model *m, event e)
{
    vongselik_state before = *s;
    vongselik_answer a = vongselik_event(s, e.kind, e.rank, e.object);
    vongselik_answer b = model_event(m, e.kind, e.rank, e.object);
    int same = a.answer == b.answer && a.holder == b.holder && a.object == b.object && a.reason == b.reason && a.woken == b.woken
               && a.refusal == b.refusal && model_same(m, s);
    if (a.answer == VONGSELIK_REFUSED && memcmp(&before, s, sizeof before)) same = 0;
    check(same, "event");
    check_holder(&before, e, a, s);
    count_event(&before, e, b);
    if (b.refusal == VONGSELIK_ASLEEP) {
        model awake = awakened(m);
        count_asleep(&before, model_event(&awake, e.kind, e.rank, e.object).refusal);
    }
    return a;
}

/* ---- States handed in */

/* The state in the struct, handed in: the page, whom the waiting jobs name, a few events, each by itself, and after the last the questions and the writer. */
static void compare_handed_in(const vongselik_state *handed)
{
    vongselik_state s = *handed;
    model m, awake;
    int i;
    model_from(&m, &s);
    awake = awakened(&m);
    count_handed_in(&s, model_well_formed(&m), model_well_formed(&awake));
    count_holders(&s, &m);
    compare_page(&s, &m);
    if (model_well_formed(&m)) check_names(&s, 0);
    for (i = 0; i < 4; i++) {
        s = *handed;
        model_from(&m, &s);
        compare_event(&s, &m, any_event(&s));
    }
    compare_questions(&s, &m, below(4) == 0);
    if (below(4) == 0) compare_writing(&s, &m, below(3) ? (size_t)LONGEST : (size_t)below(400));
}

/* Locks strewn over the table of the state, handed in: as they are, or with a change of the carried rank or of the order of the holders. */
static void compare_other_holders(const vongselik_state *reached)
{
    vongselik_state s = *reached;
    if (below(4)) strew(&s);
    if (below(2)) mutate_holders(&s);
    compare_handed_in(&s);
}

/* ---- Lists of events */

/* How many events a list has, and the most room for answers to it. */
enum { LISTED = 12, ROOM = LISTED + 3 };

/* Random events, one more behind them, and what each answers by itself: the answers, packed, the state before each event, and the one after the last. */
typedef struct {
    uint8_t events[3 * LISTED + 3];
    uint32_t answers[LISTED];
    vongselik_state states[LISTED + 1];
} list;

/* The answer as vongselik_parts_events lays it down. */
static uint32_t pack(vongselik_answer a)
{
    return (uint32_t)a.answer << 24 | (uint32_t)(a.holder | a.woken | a.refusal) << 16 | (uint32_t)a.object << 8 | (uint32_t)a.reason;
}

static void make_list(list *l, const vongselik_state *handed)
{
    vongselik_state s = *handed;
    int i;
    for (i = 0; i <= LISTED; i++) {
        event e = any_event(&s);
        l->events[3 * i] = e.kind;
        l->events[3 * i + 1] = e.rank;
        l->events[3 * i + 2] = e.object;
        l->states[i] = s;
        if (i < LISTED) l->answers[i] = pack(vongselik_event(&s, e.kind, e.rank, e.object));
    }
}

/* So many bytes of the list in one call, with room for so many answers, compared with single events: how many are answered, each answer,
 * what stands behind the answers, the whole state, and that the events are as they were. */
static void compare_cut(const list *l, size_t size, size_t room)
{
    vongselik_state s = l->states[0];
    uint8_t events[sizeof l->events];
    uint32_t answers[ROOM], expected[ROOM];
    size_t count = size / 3 < room ? size / 3 : room, answered, i;
    memcpy(events, l->events, sizeof events);
    for (i = 0; i < ROOM; i++) answers[i] = expected[i] = 0xa5a5a500 + (uint32_t)i;
    memcpy(expected, l->answers, count * sizeof expected[0]);
    if (size == 3 * room)
        answered = vongselik_events(&s, events, answers, room);
    else
        answered = vongselik_parts_events(
            s.version, s.processors, s.jobs, s.objects, s.processor_of, s.may_read, s.may_write, &s.active, &s.unlocked, &s.sleeping, &s.holder,
            s.readers, s.writers, s.certified, s.request, events, size, answers, room);
    check(
        answered == count && !memcmp(answers, expected, sizeof answers) && !memcmp(&s, &l->states[count], sizeof s)
            && !memcmp(events, l->events, sizeof events),
        "a list of events, cut");
}

/* The whole list in one call, compared with the model: each answer, and the state after them. */
static void compare_whole(const list *l)
{
    vongselik_state s = l->states[0];
    model m;
    uint32_t answers[LISTED];
    int same, i;
    model_from(&m, &s);
    same = vongselik_events(&s, l->events, answers, LISTED) == LISTED;
    for (i = 0; i < LISTED && same; i++) same = answers[i] == pack(model_event(&m, l->events[3 * i], l->events[3 * i + 1], l->events[3 * i + 2]));
    check(same && model_same(&m, &s), "a list of events");
}

/* A random list on the state: whole, cut after each byte, with room for fewer, as many and more answers, and empty. */
static void compare_list(const vongselik_state *handed)
{
    static list l;
    vongselik_state s = *handed;
    size_t size, room;
    make_list(&l, handed);
    compare_whole(&l);
    for (size = 0; size <= 3 * LISTED; size++)
        for (room = 0; room <= ROOM; room++) compare_cut(&l, size, room);
    check(vongselik_events(&s, NULL, NULL, 0) == 0 && !memcmp(&s, handed, sizeof s), "no events");
}

/* Lists on the state that events reached, on locks strewn over its table, on either with changes, and on noise. */
static void compare_lists(const vongselik_state *reached)
{
    vongselik_state s = *reached;
    compare_list(&s);
    strew(&s);
    compare_list(&s);
    if (below(2)) s = *reached;
    mutate(&s, 1 + below(3));
    compare_list(&s);
    fill_with_noise(&s);
    compare_list(&s);
}

/* ---- All of it for one table */

static void compare_table(int events)
{
    static uint8_t bytes[LONGEST];
    vongselik_state s, other;
    model m;
    size_t used;
    int i;
    compare_tables(&s, bytes, &used);
    compare_last_object(&s);
    model_from(&m, &s);
    compare_page(&s, &m);
    begin_runs(s.version);
    for (i = 0; i < events; i++) {
        event e = any_event(&s);
        vongselik_answer a = compare_event(&s, &m, e);
        note_event(e, a);
        if (a.answer != VONGSELIK_REFUSED) check_names(&s, 1);
        if (i % 4 == 0) compare_questions(&s, &m, i % 16 == 0);
        if (i % 12 == 3) compare_other_holders(&s);
        if (i % 6) continue;
        compare_page(&s, &m);
        other = s;
        if (below(2)) strew(&other);
        mutate(&other, below(4));
        compare_handed_in(&other);
    }
    check_arrows();
    compare_full_page(&s);
    compare_writing(&s, &m, LONGEST);
    compare_writing(&s, &m, used);
    compare_writing(&s, &m, used - 1);
    compare_writing(&s, &m, 0);
    fill_with_noise(&other);
    compare_handed_in(&other);
    compare_lists(&s);
    compare_loads(&s);
}

int main(int argc, char **argv)
{
    int tables = argc > 1 ? atoi(argv[1]) : USUAL_TABLES, events = argc > 2 ? atoi(argv[2]) : USUAL_EVENTS, i;
    unsigned long start = argc > 3 ? strtoul(argv[3], NULL, 10) : 1;
    compare_names();
    compare_nobody();
    for (i = 0; i < tables; i++) {
        begin_inputs(start, i);
        compare_table(events);
    }
    end_tables(tables);
    printf("%d tables, %lu events in their order\n", tables, (unsigned long)tables * (unsigned long)events);
    check_nobody_occurred(tables);
    check_pages_occurred(tables);
    check_loads_occurred(tables);
    check_arrows_occurred(tables);
    check_answers_occurred(tables, events);
    check_holders_occurred(tables, events);
    return print_checks() ? 0 : 1;
}
