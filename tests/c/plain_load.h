/* A test load made by plain loops, for load_cost.c. */
#ifndef PLAIN_LOAD_H
#define PLAIN_LOAD_H

#include <stddef.h>
#include <stdint.h>

/* Lays count events, three bytes each, into the front of the buffer, which has to be long enough. Answers the next seed. Nothing is tested. */
uint32_t plain_make_events(uint8_t jobs, uint8_t objects, uint32_t seed, size_t count, uint8_t *buffer);

/* The same, with the object by arithmetic and not by a choice, so that the compiler makes no branch of it. */
uint32_t plain_make_events_by_arithmetic(uint8_t jobs, uint8_t objects, uint32_t seed, size_t count, uint8_t *buffer);

#endif
