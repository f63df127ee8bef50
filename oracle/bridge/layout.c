/* The calls of the crates layout and parts. Their functions have the numbers
   that the program compare_layout knows them by. */

#include "bridge.h"

/* The number is that of the refusal, and the rest is 0 then; or it is 0. */
struct decoded {
    u32 number;
    u32 position;
    u32 lost;
    u32 used;
    usize records;
};

extern struct decoded layout_decode(const u8 *part, usize length);
extern usize layout_run(const u8 *part, usize length, u8 *out, usize out_length);
extern u32 layout_lay_out(const u8 *run, usize run_length, u32 position, u32 lost,
                          u8 *part, usize length);
extern void layout_write_header(u8 *part, usize length, u32 position, u32 lost);
extern void layout_write_used(u8 *part, usize length, u32 used);
extern void layout_lay_record(u8 *desk, usize desk_length, const u8 *payload,
                              usize payload_length, u8 kind, u8 producer);
extern void layout_copy(const u8 *src, usize src_length, u8 *dst, usize dst_length);

static int answer_decoded(struct frame *frame, struct decoded decoded)
{
    answer(frame, decoded.number);
    frame->numbers[1] = decoded.position;
    frame->numbers[2] = decoded.lost;
    frame->numbers[3] = decoded.used;
    frame->numbers[4] = decoded.records;
    return 1;
}

/* The first two strings are the memory lent, in the order of the arguments. What
   answers no number has nothing to show but that memory. */
int layout_call(struct frame *frame)
{
    const u64 *n = frame->numbers + 1;
    u8 *a = frame->strings[0];
    u8 *b = frame->strings[1];
    usize a_length = frame->lengths[0];
    usize b_length = frame->lengths[1];
    switch (frame->numbers[0] % 256) {
    case 0:
        return answer_decoded(frame, layout_decode(a, a_length));
    case 1:
        return answer(frame, layout_run(a, a_length, b, b_length));
    case 2:
        return answer(frame, layout_lay_out(a, a_length, n[0], n[1], b, b_length));
    case 3:
        layout_write_header(a, a_length, n[0], n[1]);
        return answer(frame, 0);
    case 4:
        layout_write_used(a, a_length, n[0]);
        return answer(frame, 0);
    case 5:
        layout_lay_record(a, a_length, b, b_length, n[0], n[1]);
        return answer(frame, 0);
    case 6:
        layout_copy(a, a_length, b, b_length);
        return answer(frame, 0);
    default:
        return 0;
    }
}
