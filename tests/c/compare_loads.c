/* Test loads, compared with the model: see compare_loads.h. */
#include "compare_loads.h"

#include <stdio.h>
#include <string.h>

#include "checks.h"
#include "inputs.h"
#include "model.h"

/* How many events a load has that is split and sent, how many it has at most in buffers of several lengths, and how many a long one has: more than 16 bits
 * count. */
enum { SHORT_LOAD = 12, MIDDLE_LOAD = 200, LONG_LOAD = 70000 };

/* The most that is lent for a load, the bytes before it and behind it, which nobody may write, and all of them. */
enum { LENT = 3 * LONG_LOAD + 100, AROUND = 30, ROOM = AROUND + LENT + AROUND };

/* The most events whose bytes a size_t counts. Three times the next number, cut to a size_t, is 2. */
static const size_t third = SIZE_MAX / 3;

/* How many loads of events were made from seed 0, from 2^32 - 1, in a buffer that just holds them, and how many were long; how many loads had no event. */
static unsigned long from_first_seed, from_last_seed, just_held, long_loads, empty_loads;

/* How many loads were refused by 8, and how many of these had too short a buffer too; how many were refused by 23, how many of these for a single byte, and
 * how many of them had a triple past SIZE_MAX. */
static unsigned long by_8, by_8_before_23, by_23, by_23_for_a_byte, by_23_past_all;

/* How many events of loads were sent, by their kind. */
static unsigned long sent[7];

/* ---- One load */

/* Counts a load that the model has answered so. */
static void count_load(uint32_t seed, size_t count, size_t size, int refusal)
{
    if (refusal == 8) {
        by_8++;
        if (count > size / 3) by_8_before_23++;
    } else if (refusal == 23) {
        by_23++;
        if (count <= third && size == 3 * count - 1) by_23_for_a_byte++;
        if (count > third) by_23_past_all++;
    } else if (count == 0) {
        empty_loads++;
    } else {
        if (seed == 0) from_first_seed++;
        if (seed == UINT32_MAX) from_last_seed++;
        if (size == 3 * count) just_held++;
        if (count == LONG_LOAD) long_loads++;
    }
}

/* So many events from the seed in a buffer of this length, compared with the model: the answer, the next seed and its neighbours, each byte of the buffer
 * and around it, and that the state is as it was. */
static void compare_load_in(const vongselik_state *s, const model *m, uint32_t seed, size_t count, size_t size)
{
    static uint8_t ours[ROOM], theirs[ROOM];
    vongselik_state asked = *s;
    uint32_t seeds[3] = {~seed, seed, ~seed}, model_seeds[3] = {~seed, seed, ~seed};
    size_t all = AROUND + size + AROUND, i, first = (size_t)below(256);
    int refusal, number;
    for (i = 0; i < all; i++) ours[i] = theirs[i] = (uint8_t)(i * 37 + first);
    refusal = model_make_events(m, &model_seeds[1], count, theirs + AROUND, size);
    number = vongselik_make_events(&asked, &seeds[1], count, size ? ours + AROUND : NULL, size);
    check(
        number == refusal && !memcmp(seeds, model_seeds, sizeof seeds) && !memcmp(ours, theirs, all) && !memcmp(&asked, s, sizeof asked), "make_events");
    count_load(seed, count, size, refusal);
}

/* The load in a buffer that is longer, as long, one byte too short, of any length, and of none. */
static void compare_load(const vongselik_state *s, const model *m, uint32_t seed, size_t count)
{
    size_t length = 3 * count;
    compare_load_in(s, m, seed, count, length + 1 + (size_t)below(100));
    compare_load_in(s, m, seed, count, length);
    compare_load_in(s, m, seed, count, length ? length - 1 : 0);
    compare_load_in(s, m, seed, count, (size_t)below(3 * MIDDLE_LOAD));
    compare_load_in(s, m, seed, count, 0);
}

/* A number of events up to MIDDLE_LOAD, few of them or none more often than not. */
static size_t any_count(void)
{
    return (size_t)below(below(2) ? 4 : MIDDLE_LOAD + 1);
}

/* A number of events that no buffer holds. Its triple is past SIZE_MAX more often than not, and often small if it is cut to a size_t; in 64 bits, the lower
 * half of the second and of the third number is 0. */
static size_t large_count(void)
{
    switch (below(6)) {
    case 0: return SIZE_MAX - (size_t)below(3);
    case 1: return SIZE_MAX / 2 + 1;
    case 2: return SIZE_MAX / 4 + 1;
    case 3: return third;
    case 4: return third + 1 + (size_t)below(MIDDLE_LOAD);
    default: return 2 * third + 1 + (size_t)below(MIDDLE_LOAD);
    }
}

/* A load that no buffer holds: in a long buffer, in one that holds what is left of the triple if it is cut to a size_t, and in none. */
static void compare_large_load(const vongselik_state *s, const model *m, uint32_t seed)
{
    size_t count = large_count(), cut = 3 * count;
    compare_load_in(s, m, seed, count, 3 * MIDDLE_LOAD + 100);
    compare_load_in(s, m, seed, count, cut < LENT ? cut : 1);
    compare_load_in(s, m, seed, count, 0);
}

/* ---- A load in parts, and sent */

/* The state's table with every job idle. */
static vongselik_state idle(const vongselik_state *s)
{
    vongselik_state other = *s;
    other.active = other.unlocked = other.sleeping = 0;
    other.holder = 0;
    memset(other.readers, 0, sizeof other.readers);
    memset(other.writers, 0, sizeof other.writers);
    memset(other.certified, 0, sizeof other.certified);
    memset(other.request, 0, sizeof other.request);
    return other;
}

/* The load in two parts, split at every place, compared with the load that was made at once: the next seed and each byte of the buffer. The second part
 * is made behind the first, from the seed that the first left, for another state of the same table. */
static void compare_splits(const vongselik_state *s, uint32_t seed, const uint8_t *load, size_t size, uint32_t next)
{
    vongselik_state other = idle(s);
    uint8_t parts[3 * SHORT_LOAD + AROUND];
    size_t first;
    for (first = 0; first <= SHORT_LOAD; first++) {
        uint32_t left = seed;
        int number;
        memset(parts, 0xa5, sizeof parts);
        number = vongselik_make_events(s, &left, first, parts, size);
        if (!number) number = vongselik_make_events(&other, &left, SHORT_LOAD - first, parts + 3 * first, size - 3 * first);
        check(!number && left == next && !memcmp(parts, load, size), "a load in two parts");
    }
}

/* The events of the load, sent one after the other to a copy of the state: none is refused by 8 to 11. */
static void send_load(const vongselik_state *s, const uint8_t *load)
{
    vongselik_state copy = *s;
    int i;
    for (i = 0; i < SHORT_LOAD; i++) {
        const uint8_t *e = load + 3 * i;
        int refusal = vongselik_event(&copy, e[0], e[1], e[2]).refusal;
        check(refusal < 8 || refusal > 11, "an event of a load, refused by 8 to 11");
        if (e[0] <= 6) sent[e[0]]++;
    }
}

/* A short load on a well-formed state: in two parts, and sent. */
static void compare_uses(const vongselik_state *s, uint32_t seed)
{
    uint8_t load[3 * SHORT_LOAD + AROUND];
    uint32_t next = seed;
    memset(load, 0xa5, sizeof load);
    check(vongselik_make_events(s, &next, SHORT_LOAD, load, sizeof load) == 0, "a short load");
    compare_splits(s, seed, load, sizeof load, next);
    send_load(s, load);
}

/* ---- All loads */

/* Loads on the state from the first seed, from the last one, and from any. */
static void compare_loads_on(const vongselik_state *s)
{
    uint32_t seeds[3] = {0, UINT32_MAX, 0};
    model m;
    int i;
    seeds[2] = (uint32_t)below(65536) * 65536 + (uint32_t)below(65536);
    model_from(&m, s);
    for (i = 0; i < 3; i++) {
        compare_load(s, &m, seeds[i], any_count());
        compare_large_load(s, &m, seeds[i]);
        if (model_well_formed(&m)) compare_uses(s, seeds[i]);
    }
    if (below(50) == 0) compare_load(s, &m, seeds[2], LONG_LOAD);
}

void compare_loads(const vongselik_state *reached)
{
    vongselik_state s = *reached;
    compare_loads_on(&s);
    strew(&s);
    compare_loads_on(&s);
    if (below(2)) s = *reached;
    mutate(&s, 1 + below(3));
    compare_loads_on(&s);
    fill_with_noise(&s);
    compare_loads_on(&s);
    memset(&s, 0, sizeof s);
    compare_loads_on(&s);
}

void check_loads_occurred(int tables)
{
    int kind, each = 1;
    printf("test loads: %lu with no event, %lu long, %lu just held by the buffer, ", empty_loads, long_loads, just_held);
    printf("%lu from seed 0, %lu from 2^32 - 1;\n", from_first_seed, from_last_seed);
    printf("%lu refused by 8, %lu of them with a short buffer; ", by_8, by_8_before_23);
    printf("%lu refused by 23, %lu of them for one byte, %lu with a triple past all sizes;\n", by_23, by_23_for_a_byte, by_23_past_all);
    printf("their events sent, by kind:");
    for (kind = 1; kind <= 6; kind++) {
        printf(" %lu", sent[kind]);
        if (!sent[kind]) each = 0;
    }
    printf("\n");
    if (tables < ENOUGH) return;
    check(empty_loads && long_loads && just_held && from_first_seed && from_last_seed && each, "a load that has to occur does not");
    check(by_8 && by_8_before_23 && by_23 && by_23_for_a_byte && by_23_past_all, "a refused load that has to occur does not");
}
