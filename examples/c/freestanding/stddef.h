/* For a compiler that has no headers of its own. */
typedef __SIZE_TYPE__ size_t;
