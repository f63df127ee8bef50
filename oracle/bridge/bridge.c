/* The bridge: calls the first implementation for an asker in another process.

   The asker has no unsafe code, which a call of C takes; so it sends calls through
   one pipe and gets the answers, in order, through another. A frame is a call or
   an answer: eight numbers, the lengths of three byte strings, and those strings,
   all numbers little-endian in 64 bits. */

#include "bridge.h"

extern long read(int file, void *to, usize length);
extern long write(int file, const void *from, usize length);
extern usize strlen(const char *text);
_Noreturn extern void exit(int status);

enum { BLOCK = 1 << 18 };

static struct {
    u8 bytes[BLOCK];
    usize at;
    usize end;
} input;

static struct {
    u8 bytes[BLOCK];
    usize end;
} output;

/* A function's number names one of these in the bits above its low 8. */
static int (*const crates[])(struct frame *) = {
    counts_call,
    layout_call,
    ring_call,
};

_Noreturn void stop(const char *why)
{
    write(2, why, strlen(why));
    exit(1);
}

static void flush(void)
{
    usize at = 0;
    while (at < output.end) {
        long written = write(1, output.bytes + at, output.end - at);
        if (written < 0)
            stop("bridge: the answers can't be written\n");
        at += written;
    }
    output.end = 0;
}

/* Reads the next block, if there is one. Every answer goes out first: the asker
   may wait for it before it asks on. */
static int refill(void)
{
    flush();
    long length = read(0, input.bytes, BLOCK);
    if (length < 0)
        stop("bridge: the calls can't be read\n");
    input.at = 0;
    input.end = length;
    return length > 0;
}

static int at_end(void)
{
    return input.at == input.end && !refill();
}

static usize smaller(usize x, usize y)
{
    return x < y ? x : y;
}

static void take(void *to, usize length)
{
    u8 *next = to;
    while (length > 0) {
        if (at_end())
            stop("bridge: the calls end within a frame\n");
        usize some = smaller(length, input.end - input.at);
        __builtin_memcpy(next, input.bytes + input.at, some);
        input.at += some;
        next += some;
        length -= some;
    }
}

static void give(const void *from, usize length)
{
    const u8 *next = from;
    while (length > 0) {
        if (output.end == BLOCK)
            flush();
        usize some = smaller(length, BLOCK - output.end);
        __builtin_memcpy(output.bytes + output.end, next, some);
        output.end += some;
        next += some;
        length -= some;
    }
}

static void take_frame(struct frame *frame)
{
    take(frame->numbers, sizeof frame->numbers);
    take(frame->lengths, sizeof frame->lengths);
    for (int i = 0; i < STRINGS; i++) {
        if (frame->lengths[i] > LONGEST)
            stop("bridge: a string is too long\n");
        take(frame->strings[i], frame->lengths[i]);
    }
}

static void give_frame(const struct frame *frame)
{
    give(frame->numbers, sizeof frame->numbers);
    give(frame->lengths, sizeof frame->lengths);
    for (int i = 0; i < STRINGS; i++)
        give(frame->strings[i], frame->lengths[i]);
}

int answer(struct frame *frame, u64 result)
{
    u64 *n = frame->numbers;
    n[0] = result;
    n[1] = n[2] = n[3] = n[4] = n[5] = n[6] = n[7] = 0;
    return 1;
}

static void call(struct frame *frame)
{
    u64 crate = frame->numbers[0] / 256;
    if (crate >= sizeof crates / sizeof *crates || !crates[crate](frame))
        stop("bridge: there is no such function\n");
}

int main(void)
{
    static struct frame frame;
    while (!at_end()) {
        take_frame(&frame);
        call(&frame);
        give_frame(&frame);
    }
    return 0;
}
