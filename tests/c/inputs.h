/* Random tables, events and states, well formed or not. The same seed gives the same ones. */
#ifndef INPUTS_H
#define INPUTS_H

#include <stddef.h>
#include <stdint.h>

#include "vongselik.h"

/* The most bytes that make_table lays. */
enum { LONGEST = VONGSELIK_LONGEST_TABLE + 64 };

typedef struct event {
    uint8_t kind, rank, object;
} event;

/* The inputs of the table with the number, in the sequence with the number. */
void begin_inputs(unsigned long sequence, int table);

/* A random number below n. */
int below(int n);

/* A number from 1 to n, or now and then one that is out of range. */
int about(int n);

/* Random table bytes of either version with something behind them; answers the length of all. */
size_t make_table(uint8_t *bytes);

/* Changes some bytes, or cuts the bytes short; answers the new length. */
size_t spoil_table(uint8_t *bytes, size_t size);

/* A random event; more often than not of a kind that the job may send, an unlock of an object that it has locked, a certify of one that it has
 * write-locked, and a wake of a job that sleeps. */
event any_event(const vongselik_state *s);

/* Locks, requests and sleepers strewn over the table, by and large well formed, though no events lead there; most often with the holders in order, many of
 * them at times. The carried rank is true. */
void strew(vongselik_state *s);

/* So many changes somewhere in a state, which may then no longer be well formed: changes by mutate_holders among them. In half of the changed states the
 * carried rank is true in the end. */
void mutate(vongselik_state *s, int times);

/* Another rank that the state carries, wrong more often than not; or a few locks more, or certified, and the true rank: that breaks the order of the holders
 * more often than not, and no other rule. */
void mutate_holders(vongselik_state *s);

/* Nothing but random numbers in the struct. */
void fill_with_noise(vongselik_state *s);

#endif
