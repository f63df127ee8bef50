/* What the files of the bridge share. The kit has no C headers, so the bridge
   includes none but this one. */

typedef unsigned char u8;
typedef unsigned int u32;
typedef unsigned long u64;
typedef unsigned long usize;

enum {
    NUMBERS = 8,
    STRINGS = 3,
    LONGEST = 131072,
};

/* A call, which becomes its own answer.

   In a call the first number is the function's, 256 times its crate's place in
   the bridge's table plus its own number there; the others are plain arguments.
   In an answer all of them are results. The strings are lent memory: a call may
   change them, and leaves their lengths as the asker is to see them. */
struct frame {
    u64 numbers[NUMBERS];
    u64 lengths[STRINGS];
    u8 strings[STRINGS][LONGEST];
};

/* Makes the frame an answer with this one result. Returns 1. */
int answer(struct frame *frame, u64 result);

/* Ends the bridge. The asker sees an answer missing; the words say why. */
_Noreturn void stop(const char *why);

/* One for each crate that is compared. Each does the call that the low 8 bits of
   the function's number name, or returns 0 if there is no such function. */
int counts_call(struct frame *frame);
int layout_call(struct frame *frame);
int ring_call(struct frame *frame);
