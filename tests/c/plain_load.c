/* A test load made by plain loops: see plain_load.h. A file of its own, so that nothing is worked out from the numbers in load_cost.c. */
#include "plain_load.h"

uint32_t plain_make_events(uint8_t jobs, uint8_t objects, uint32_t seed, size_t count, uint8_t *buffer)
{
    uint32_t s = seed;
    uint8_t *end = buffer + 3 * count;
    for (; buffer < end; buffer += 3) {
        uint32_t kind, rank, object;
        s = s * 1664525u + 1013904223u;
        kind = 1 + (s >> 24) % 6;
        s = s * 1664525u + 1013904223u;
        rank = 1 + (s >> 24) % jobs;
        s = s * 1664525u + 1013904223u;
        object = 1 + (s >> 24) % objects;
        if (kind == 1 || kind == 5 || kind == 6) object = 0;
        buffer[0] = (uint8_t)kind;
        buffer[1] = (uint8_t)rank;
        buffer[2] = (uint8_t)object;
    }
    return s;
}

uint32_t plain_make_events_by_arithmetic(uint8_t jobs, uint8_t objects, uint32_t seed, size_t count, uint8_t *buffer)
{
    uint32_t s = seed;
    uint8_t *end = buffer + 3 * count;
    for (; buffer < end; buffer += 3) {
        uint32_t kind, rank, carried;
        s = s * 1664525u + 1013904223u;
        kind = 1 + (s >> 24) % 6;
        s = s * 1664525u + 1013904223u;
        rank = 1 + (s >> 24) % jobs;
        s = s * 1664525u + 1013904223u;
        carried = kind >= 2 && kind <= 4;
        buffer[0] = (uint8_t)kind;
        buffer[1] = (uint8_t)rank;
        buffer[2] = (uint8_t)(carried + carried * (s >> 24) % objects);
    }
    return s;
}
