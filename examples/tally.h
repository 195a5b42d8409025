/* How often each key of numbers came, in the order of the keys. */
#ifndef TALLY_H
#define TALLY_H

#include <stddef.h>
#include <stdint.h>

/* A key has room for an answer, 23 masks and 23 values; numbers that a kind of key does not use are 0. */
enum { TALLY_KEY = 47 };

struct tally_row {
    uint64_t key[TALLY_KEY];
    uint64_t times;
};

/* All 0 at first. */
struct tally {
    struct tally_row *rows;
    size_t used, room;
};

/* Counts a key once more. Answers 0, or -1 where there is no memory for a new row. */
int tally_add(struct tally *tally, const uint64_t key[TALLY_KEY]);

#endif
