/* The plain C peer for speed.c: its peer.c, whose functions are static, with what speed_peer.h names. Compiled by itself, and linked before all else,
 * so that its code neither mixes with the library's nor moves when that one grows. Built with the folder of the peer on the include path. */
#define _POSIX_C_SOURCE 199309L
#define main peer_main
#include "peer.c"
#undef main

#include "speed_peer.h"

static State taken;

uint32_t peer_answers(const uint8_t *input, size_t size, size_t *used)
{
    static State s;
    uint32_t answers = 0;
    size_t i;
    read_table(input, size, &s, used);
    for (i = *used; i + 3 <= size; i += 3) {
        Answer x = event(&s, 1, input[i], input[i + 1], input[i + 2]);
        uint32_t number = x.tag == 'G' ? 1 : x.tag == 'W' ? 2 : x.tag == 'D' ? 3 : 4;
        answers ^= number << 24 | (uint32_t)x.a << 16 | (uint32_t)x.b << 8 | (uint32_t)x.c;
    }
    return answers;
}

void peer_take(const vongselik_state *s)
{
    taken.processors = s->processors;
    taken.jobs = s->jobs;
    taken.objects = s->objects;
    memcpy(taken.processor_of, s->processor_of, sizeof taken.processor_of);
    memcpy(taken.may_read, s->may_read, sizeof taken.may_read);
    memcpy(taken.may_write, s->may_write, sizeof taken.may_write);
    taken.active = s->active;
    taken.unlocked = s->unlocked;
    memcpy(taken.readers, s->readers, sizeof taken.readers);
    memcpy(taken.writers, s->writers, sizeof taken.writers);
    memcpy(taken.request, s->request, sizeof taken.request);
}

void peer_unlock_often(int rank, int object, int times)
{
    for (; times > 0; times--) {
        Answer x = event(&taken, 1, VONGSELIK_UNLOCK, rank, object);
        if (x.tag != 'D' || x.a) exit(1);
        taken.unlocked = 0;
        taken.readers[object - 1] = bit(rank);
    }
}
