/* What speed.c needs of the plain C peer. */
#ifndef SPEED_PEER_H
#define SPEED_PEER_H

#include <stddef.h>
#include <stdint.h>

#include "vongselik.h"

/* Reads the table at the front of the input and sends the events behind it: the exclusive or of the answers, packed as the library packs its own,
 * and the table's length in *used. */
uint32_t peer_answers(const uint8_t *input, size_t size, size_t *used);

/* Takes the state over: peer_unlock_often works on it. */
void peer_take(const vongselik_state *s);

/* So many unlocks of an object that the rank reads, each of which has to wake nobody. After each, what it changed is put back. */
void peer_unlock_often(int rank, int object, int times);

#endif
