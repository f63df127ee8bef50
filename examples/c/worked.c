/* The worked example of docs/01-scope.md ("The replay program") through the C interface: the same calls, and a line for each with the
 * answer and the five counts; then the sub-buffer that was got, as far as it is used, and what the decoder says of it. */
#include "waxbramble.h"

/* The C library's, declared here so that no header of it is needed. */
extern long write(int, const void *, size_t);

enum { SIZE = 64, PARTS = 2, PRODUCERS = 2 };

static uint8_t memory[SIZE * PARTS];
static uint8_t desks[SIZE * PRODUCERS];
static struct waxbramble_ring ring;

static void text(const char *s) {
    size_t n = 0;
    while (s[n]) n++;
    write(1, s, n);
}

static void number(uint32_t n, uint32_t base, int least) {
    char digits[10];
    int at = 10;
    for (; n || 0 < least; n /= base, least--) digits[--at] = "0123456789abcdef"[n % base];
    write(1, digits + at, (size_t)(10 - at));
}

/* One line of the replay: the answer, write, read, offered, written, lost. */
static void line(struct waxbramble_answer a) {
    ring = a.ring;
    const uint32_t fields[6] = {a.code, ring.write, ring.read, ring.offered, ring.written, ring.lost};
    for (int i = 0; i < 6; i++) {
        if (i) text(" ");
        number(fields[i], 10, 1);
    }
    text("\n");
}

static void offer(uint32_t p, uint8_t kind, size_t length) {
    uint8_t payload[SIZE];
    for (size_t i = 0; i < length; i++) payload[i] = kind;
    line(waxbramble_offer(ring, p, kind, payload, length, desks, sizeof desks));
}

static void run(uint32_t p) {
    line(waxbramble_run(ring, p, memory, sizeof memory, desks, sizeof desks));
}

static void show_held(void) {
    struct waxbramble_span s = waxbramble_held(ring, sizeof memory);
    struct waxbramble_decoded d = waxbramble_decode(memory + s.start, s.end - s.start);
    for (size_t i = s.start; i < s.start + d.used; i++) {
        number(memory[i], 16, 2);
        text(" ");
    }
    text("\nrecords ");
    number((uint32_t)d.records, 10, 1);
    text("\n");
}

int main(void) {
    line(waxbramble_fresh(SIZE, PARTS, PRODUCERS, 0));
    offer(0, 1, 2);
    run(0);
    offer(1, 2, 40);
    run(1);
    line(waxbramble_get(ring));
    show_held();
    offer(0, 3, 2);
    run(0);
    line(waxbramble_put(ring));
    offer(0, 4, 2);
    run(0);
    return 0;
}
