/* The calls of the crate counts. Its functions have the numbers that the
   program compare_counts knows them by. */

#include "bridge.h"

struct place {
    u32 padding;
    _Bool closes;
    _Bool enters;
    u32 t;
    u32 a;
    u32 e;
    _Bool ends;
};

extern u32 counts_position_plus(u32 x, u32 n);
extern u32 counts_position_since(u32 x, u32 y);
extern u32 counts_commit_plus(u32 x, u32 n);
extern u32 counts_commit_since(u32 x, u32 y);
extern _Bool counts_size_allowed(u32 size);
extern _Bool counts_parts_allowed(u32 parts);
extern _Bool counts_producers_allowed(u32 producers);
extern _Bool counts_shape_allowed(u32 size, u32 parts, u32 producers);
extern u32 counts_offset(u32 x, u32 size);
extern u32 counts_start(u32 x, u32 size);
extern u32 counts_left(u32 x, u32 size);
extern u32 counts_next(u32 x, u32 size);
extern struct place counts_place(u32 w, u32 z, u32 size, u32 header);
extern usize counts_byte(u32 x, u32 size, u32 parts);
extern usize counts_part(u32 x, u32 size, u32 parts);
extern _Bool counts_full(struct place place, u32 read, u32 size, u32 parts);
extern u32 counts_to_commit(u32 r, u32 size, u32 parts);
extern _Bool counts_ready(u32 r, u32 seq, u32 size, u32 parts);
extern _Bool counts_round(u32 x, u32 size);
extern _Bool counts_raises(u32 v, u32 s);
extern u64 counts_remainder(u64 x, u64 s);
extern u64 counts_quotient(u64 x, u64 s);

/* A place crosses as three numbers, since with its seven fields too many would
   be needed: padding below t, a below e, and a bit for each yes or no. */
static int answer_place(struct frame *frame, struct place place)
{
    answer(frame, place.padding | (u64)place.t << 32);
    frame->numbers[1] = place.a | (u64)place.e << 32;
    frame->numbers[2] = place.closes | place.enters << 1 | place.ends << 2;
    return 1;
}

static struct place place_from(const u64 *three)
{
    return (struct place){
        .padding = three[0],
        .closes = three[2] & 1,
        .enters = three[2] >> 1 & 1,
        .t = three[0] >> 32,
        .a = three[1],
        .e = three[1] >> 32,
        .ends = three[2] >> 2 & 1,
    };
}

int counts_call(struct frame *frame)
{
    const u64 *n = frame->numbers + 1;
    switch (frame->numbers[0] % 256) {
    case 0: return answer(frame, counts_position_plus(n[0], n[1]));
    case 1: return answer(frame, counts_position_since(n[0], n[1]));
    case 2: return answer(frame, counts_commit_plus(n[0], n[1]));
    case 3: return answer(frame, counts_commit_since(n[0], n[1]));
    case 4: return answer(frame, counts_size_allowed(n[0]));
    case 5: return answer(frame, counts_parts_allowed(n[0]));
    case 6: return answer(frame, counts_producers_allowed(n[0]));
    case 7: return answer(frame, counts_shape_allowed(n[0], n[1], n[2]));
    case 8: return answer(frame, counts_offset(n[0], n[1]));
    case 9: return answer(frame, counts_start(n[0], n[1]));
    case 10: return answer(frame, counts_left(n[0], n[1]));
    case 11: return answer(frame, counts_next(n[0], n[1]));
    case 12: return answer_place(frame, counts_place(n[0], n[1], n[2], n[3]));
    case 13: return answer(frame, counts_byte(n[0], n[1], n[2]));
    case 14: return answer(frame, counts_part(n[0], n[1], n[2]));
    case 15: return answer(frame, counts_full(place_from(n), n[3], n[4], n[5]));
    case 16: return answer(frame, counts_to_commit(n[0], n[1], n[2]));
    case 17: return answer(frame, counts_ready(n[0], n[1], n[2], n[3]));
    case 18: return answer(frame, counts_round(n[0], n[1]));
    case 19: return answer(frame, counts_raises(n[0], n[1]));
    case 20: return answer(frame, counts_remainder(n[0], n[1]));
    case 21: return answer(frame, counts_quotient(n[0], n[1]));
    default: return 0;
    }
}
