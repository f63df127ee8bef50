/* The calls of the ring for C. Link with crates/api/out/libapi.a (x86-64). The rules are docs/01-scope.md.
 *
 * The state goes in by value and comes back by value. A slice is a pointer and a length. Every call answers for every state and every
 * argument: 0 for done, or the number of the refusal, and then the state it got and no byte of lent memory changed. Pointers must be
 * valid for their lengths, and a slice that a call writes must not overlap another one of the same call. */
#ifndef WAXBRAMBLE_H
#define WAXBRAMBLE_H

#include <stdbool.h>
#include <stddef.h>
#include <stdint.h>

/* What a producer holds. */
struct waxbramble_producer {
    uint32_t phase, z, w;
    bool full;
    uint32_t done, v, s;
};

/* The state of a ring of S, N and P: size, parts and producers. */
struct waxbramble_ring {
    uint32_t size, parts, producers;
    uint32_t write, read;
    uint32_t commit[16], seq[16];
    struct waxbramble_producer producer[8];
    uint32_t offered, written, lost;
    bool holding;
};

struct waxbramble_answer {
    uint32_t code;
    struct waxbramble_ring ring;
};

/* A part of ring memory, from start to end. */
struct waxbramble_span {
    size_t start, end;
};

/* What the decoder answers: number 0 and the values, or the refusal's number and zeros. */
struct waxbramble_decoded {
    uint32_t number, position, lost, used;
    size_t records;
};

/* Ring memory is S * N bytes, desks are S * P bytes. */
struct waxbramble_answer waxbramble_fresh(uint32_t size, uint32_t parts, uint32_t producers, uint32_t start);
struct waxbramble_answer waxbramble_offer(struct waxbramble_ring r, uint32_t p, uint8_t kind, const uint8_t *payload, size_t length,
                                          uint8_t *desks, size_t desks_length);
struct waxbramble_answer waxbramble_flush(struct waxbramble_ring r, uint32_t p);
struct waxbramble_answer waxbramble_step(struct waxbramble_ring r, uint32_t p, uint8_t *memory, size_t memory_length,
                                         const uint8_t *desks, size_t desks_length);
/* Steps until the producer is idle. */
struct waxbramble_answer waxbramble_run(struct waxbramble_ring r, uint32_t p, uint8_t *memory, size_t memory_length,
                                        const uint8_t *desks, size_t desks_length);
struct waxbramble_answer waxbramble_get(struct waxbramble_ring r);
struct waxbramble_answer waxbramble_put(struct waxbramble_ring r);
/* Where the held sub-buffer stands in ring memory of the given length; 0 to 0 if nothing is held. */
struct waxbramble_span waxbramble_held(struct waxbramble_ring r, size_t memory_length);
uint32_t waxbramble_ready_count(struct waxbramble_ring r);

/* A part read back, and a run of record bytes laid out (0, or the refusal's number). */
struct waxbramble_decoded waxbramble_decode(const uint8_t *part, size_t length);
uint32_t waxbramble_lay_out(const uint8_t *run, size_t run_length, uint32_t position, uint32_t lost, uint8_t *part, size_t length);

#endif
