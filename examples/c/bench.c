/* Whole uninterrupted events through the C interface, to be timed from outside: the same work as the program `bench`. Reads S, N, P, the
 * producer, the payload's length and the number of events from standard input, so that none of them is a constant, and prints the
 * counts and the sum of ring memory. */
#include "waxbramble.h"

/* The C library's, declared here so that no header of it is needed. */
extern int scanf(const char *, ...);
extern int printf(const char *, ...);

static uint8_t memory[65536], desks[32768], payload[4096];

int main(void) {
    unsigned size, parts, producers, p, length, events;
    if (scanf("%u %u %u %u %u %u", &size, &parts, &producers, &p, &length, &events) != 6) return 1;
    struct waxbramble_answer a = waxbramble_fresh(size, parts, producers, 0);
    if (a.code || 8 <= p || sizeof payload < length) return 1;
    size_t ring_length = (size_t)size * parts, desks_length = (size_t)size * producers;
    for (unsigned i = 0; i < events; i++) {
        a = waxbramble_offer(a.ring, p, 7, payload, length, desks, desks_length);
        while (a.ring.producer[p].phase) a = waxbramble_step(a.ring, p, memory, ring_length, desks, desks_length);
        if (size < a.ring.write - a.ring.read) {
            a = waxbramble_get(a.ring);
            if (a.code == 0) a = waxbramble_put(a.ring);
        }
    }
    unsigned long sum = 0;
    for (size_t i = 0; i < ring_length; i++) sum += memory[i];
    printf("%u\n%u\n%u\n%lu\n", a.ring.offered, a.ring.written, a.ring.lost, sum);
    return 0;
}
