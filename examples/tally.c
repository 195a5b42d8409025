/* How often each key of numbers came. */
#include "tally.h"

#include <stdlib.h>
#include <string.h>

static int compare(const uint64_t *x, const uint64_t *y) {
    for (size_t i = 0; i < TALLY_KEY; i++)
        if (x[i] != y[i]) return x[i] < y[i] ? -1 : 1;
    return 0;
}

/* The first row whose key is not below this one. */
static size_t place_of(const struct tally *tally, const uint64_t *key) {
    size_t low = 0, high = tally->used;
    while (low < high) {
        size_t middle = low + (high - low) / 2;
        if (compare(tally->rows[middle].key, key) < 0) low = middle + 1;
        else high = middle;
    }
    return low;
}

static int grow(struct tally *tally) {
    size_t room = tally->room ? 2 * tally->room : 64;
    struct tally_row *rows = realloc(tally->rows, room * sizeof *rows);
    if (!rows) return -1;
    tally->rows = rows;
    tally->room = room;
    return 0;
}

int tally_add(struct tally *tally, const uint64_t key[TALLY_KEY]) {
    size_t at = place_of(tally, key);
    if (at == tally->used || compare(tally->rows[at].key, key) != 0) {
        if (tally->used == tally->room && grow(tally) != 0) return -1;
        memmove(tally->rows + at + 1, tally->rows + at, (tally->used - at) * sizeof *tally->rows);
        memcpy(tally->rows[at].key, key, sizeof tally->rows[at].key);
        tally->rows[at].times = 0;
        tally->used++;
    }
    tally->rows[at].times++;
    return 0;
}
