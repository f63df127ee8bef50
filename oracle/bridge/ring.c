/* The calls of the crate api, the ring. Its functions have the numbers that the
   program compare_ring knows them by. */

#include "bridge.h"

#ifndef WITH_RING

int ring_call(struct frame *frame)
{
    (void)frame;
    stop("bridge: it has no ring, for there was no libapi.a when it was built\n");
}

#else

struct producer {
    u32 phase;
    u32 z;
    u32 w;
    _Bool full;
    u32 done;
    u32 v;
    u32 s;
};

struct ring {
    u32 size;
    u32 parts;
    u32 producers;
    u32 write;
    u32 read;
    u32 commit[16];
    u32 seq[16];
    struct producer producer[8];
    u32 offered;
    u32 written;
    u32 lost;
    _Bool holding;
};

struct answer {
    u32 code;
    struct ring ring;
};

struct span {
    usize start;
    usize end;
};

_Static_assert(sizeof(struct producer) == 28, "the asker takes a producer for 7 words");
_Static_assert(sizeof(struct ring) == 388, "the asker takes a ring for 97 words");
_Static_assert(sizeof(struct answer) == 392, "the code comes first");

extern struct answer waxbramble_fresh(u32 size, u32 parts, u32 producers, u32 start);
extern struct answer waxbramble_offer(struct ring ring, u32 p, u8 kind, const u8 *payload,
                                      usize length, u8 *desks, usize desks_length);
extern struct answer waxbramble_flush(struct ring ring, u32 p);
extern struct answer waxbramble_step(struct ring ring, u32 p, u8 *memory, usize memory_length,
                                     const u8 *desks, usize desks_length);
extern struct answer waxbramble_run(struct ring ring, u32 p, u8 *memory, usize memory_length,
                                    const u8 *desks, usize desks_length);
extern struct answer waxbramble_get(struct ring ring);
extern struct answer waxbramble_put(struct ring ring);
extern u32 waxbramble_ready_count(struct ring ring);
extern struct span waxbramble_held(struct ring ring, usize memory_length);

/* The state crosses as the bytes of its struct, in the first string. */
static struct ring received(const struct frame *frame)
{
    struct ring ring;
    if (frame->lengths[0] != sizeof ring)
        stop("bridge: a state has another length\n");
    __builtin_memcpy(&ring, frame->strings[0], sizeof ring);
    return ring;
}

static int answer_ring(struct frame *frame, struct answer given)
{
    frame->lengths[0] = sizeof given.ring;
    __builtin_memcpy(frame->strings[0], &given.ring, sizeof given.ring);
    return answer(frame, given.code);
}

static int answer_span(struct frame *frame, struct span span)
{
    answer(frame, span.start);
    frame->numbers[1] = span.end;
    return 1;
}

/* The second string is an offer's payload or the ring memory, the third the
   desks. */
int ring_call(struct frame *frame)
{
    const u64 *n = frame->numbers + 1;
    u8 *second = frame->strings[1];
    u8 *desks = frame->strings[2];
    usize length = frame->lengths[1];
    usize desks_length = frame->lengths[2];
    u64 function = frame->numbers[0] % 256;
    if (function == 0)
        return answer_ring(frame, waxbramble_fresh(n[0], n[1], n[2], n[3]));
    struct ring ring = received(frame);
    switch (function) {
    case 1:
        return answer_ring(frame, waxbramble_offer(ring, n[0], n[1], second, length, desks,
                                                   desks_length));
    case 2:
        return answer_ring(frame, waxbramble_flush(ring, n[0]));
    case 3:
        return answer_ring(frame, waxbramble_step(ring, n[0], second, length, desks,
                                                  desks_length));
    case 4:
        return answer_ring(frame, waxbramble_run(ring, n[0], second, length, desks,
                                                 desks_length));
    case 5:
        return answer_ring(frame, waxbramble_get(ring));
    case 6:
        return answer_ring(frame, waxbramble_put(ring));
    case 7:
        return answer(frame, waxbramble_ready_count(ring));
    case 8:
        return answer_span(frame, waxbramble_held(ring, n[0]));
    default:
        return 0;
    }
}

#endif
