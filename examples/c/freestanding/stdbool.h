/* For a compiler that has no headers of its own. */
#define bool _Bool
