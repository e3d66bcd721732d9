/* How much stack each call takes: prints the bytes for each, and the most. x86-64 Linux. Usage: stack [TABLES], 1,000 tables.
 * Each call runs on a stack of its own that is filled with one byte, over the random tables, events and states of the comparison (inputs.c); what it takes
 * is how far down that byte is gone, from where the calling function was entered: its return address and the call's arguments count. */
#define _XOPEN_SOURCE 600
#include <stdio.h>
#include <stdlib.h>
#include <string.h>
#include <ucontext.h>

#include "inputs.h"

enum { ROOM = 1 << 16, FILLING = 0xa5, EVENTS = 120, LISTED = 12 };

/* What the calls are given, and where they answer. */
static vongselik_state state;
static uint8_t bytes[LONGEST], buffer[LONGEST], number, processor, values[2];
static uint16_t ceilings[2];
static size_t size, length;
static event asked;
static uint8_t listed[3 * LISTED];
static uint32_t answers[LISTED], seed;

static unsigned char *entered;

/* Says where a function is entered on a stack of its own: above its return address and its caller's frame pointer. */
static void enter(void)
{
    entered = (unsigned char *)__builtin_frame_address(0) + 2 * sizeof(void *);
}

static void read_table(void)
{
    number = vongselik_read_table(&state, bytes, size, &length);
}

static void job_entries(void)
{
    number = vongselik_job_entries(bytes, size, asked.rank).refusal;
}

static void write_table(void)
{
    number = vongselik_write_table(&state, buffer, size, &length);
}

static void send_event(void)
{
    number = vongselik_event(&state, asked.kind, asked.rank, asked.object).answer;
}

static void send_list(void)
{
    length = vongselik_events(&state, listed, answers, size);
}

static void inherited_rank(void)
{
    number = vongselik_inherited_rank(&state, asked.rank, values);
}

static void named_lock(void)
{
    number = vongselik_named_lock(&state, asked.rank, values, values + 1);
}

static void ask_ceilings(void)
{
    number = vongselik_ceilings(&state, asked.object, ceilings, ceilings + 1);
}

static void running(void)
{
    number = vongselik_running(&state, processor, values);
}

static void lay_page(void)
{
    number = vongselik_page(&state, buffer, size, &length);
}

/* As many events as the rank says. The seed goes on from call to call. */
static void make_events(void)
{
    number = vongselik_make_events(&state, &seed, asked.rank, buffer, size);
}

/* ---- The calls, each with its stack */

typedef struct {
    const char *name;
    void (*function)(void);
    unsigned char room[ROOM];
} call;

enum { ENTER, READ_TABLE, JOB_ENTRIES, WRITE_TABLE, EVENT, LIST, INHERITED_RANK, NAMED_LOCK, CEILINGS, RUNNING, PAGE, MAKE_EVENTS, CALLS };

static call calls[CALLS] = {
    {"", enter, {0}},
    {"vongselik_read_table", read_table, {0}},
    {"vongselik_job_entries", job_entries, {0}},
    {"vongselik_write_table", write_table, {0}},
    {"vongselik_event", send_event, {0}},
    {"vongselik_events", send_list, {0}},
    {"vongselik_inherited_rank", inherited_rank, {0}},
    {"vongselik_named_lock", named_lock, {0}},
    {"vongselik_ceilings", ask_ceilings, {0}},
    {"vongselik_running", running, {0}},
    {"vongselik_page", lay_page, {0}},
    {"vongselik_make_events", make_events, {0}}};

/* Runs the call on its stack. */
static void run(int which)
{
    static ucontext_t here, there;
    getcontext(&there);
    there.uc_stack.ss_sp = calls[which].room;
    there.uc_stack.ss_size = ROOM;
    there.uc_link = &here;
    makecontext(&there, calls[which].function, 0);
    swapcontext(&here, &there);
}

/* How many bytes of its stack the call has taken so far. */
static int taken(int which)
{
    const unsigned char *low = calls[which].room;
    while (*low == FILLING) low++;
    return (int)(calls[which].room + (entered - calls[ENTER].room) - low);
}

/* ---- The inputs */

/* Reads a table: as it is, eight times spoilt, and once more as it is, so that the state is that of the table. */
static void run_tables(void)
{
    static uint8_t table[LONGEST];
    size_t whole = make_table(table);
    int i;
    for (i = 0; i < 10; i++) {
        memcpy(bytes, table, whole);
        size = i % 9 ? spoil_table(bytes, whole) : whole;
        asked.rank = (uint8_t)about(table[6]);
        run(READ_TABLE);
        run(JOB_ENTRIES);
    }
}

/* An event on the state, the questions, the page, a test load and the writer. */
static void run_state(void)
{
    asked = any_event(&state);
    processor = (uint8_t)below(9);
    size = below(3) ? LONGEST : below(400);
    run(EVENT);
    run(INHERITED_RANK);
    run(NAMED_LOCK);
    run(CEILINGS);
    run(RUNNING);
    run(PAGE);
    run(MAKE_EVENTS);
    run(WRITE_TABLE);
}

/* A list of events on the state, of any length up to LISTED. */
static void run_list(void)
{
    int i;
    for (i = 0; i < LISTED; i++) {
        event e = any_event(&state);
        listed[3 * i] = e.kind;
        listed[3 * i + 1] = e.rank;
        listed[3 * i + 2] = e.object;
    }
    size = (size_t)below(LISTED + 1);
    run(LIST);
}

/* A table and its states: those that events reach, and others handed in. */
static void run_states(void)
{
    vongselik_state reached;
    int i;
    for (i = 0; i < EVENTS; i++) {
        run_state();
        if (i % 6) continue;
        reached = state;
        if (below(2)) strew(&state);
        mutate(&state, below(4));
        run_state();
        run_list();
        state = reached;
        run_list();
    }
    fill_with_noise(&state);
    run_state();
    run_list();
}

int main(int argc, char **argv)
{
    int tables = argc > 1 ? atoi(argv[1]) : 1000, most = ENTER, i;
    for (i = 0; i < CALLS; i++) memset(calls[i].room, FILLING, ROOM);
    run(ENTER);
    for (i = 0; i < tables; i++) {
        begin_inputs(1, i);
        run_tables();
        run_states();
    }
    for (i = READ_TABLE; i < CALLS; i++) {
        printf("%s: %d bytes\n", calls[i].name, taken(i));
        if (taken(i) > taken(most)) most = i;
    }
    printf("the most: %s, %d bytes\n", calls[most].name, taken(most));
    return 0;
}
