/* scan.h: where in a text no symbol begins, and why. A scanner of its own in plain C, of which nothing is proved; the command symbols and the tests
 * hold it to the library. */
#ifndef SCAN_H
#define SCAN_H

#include <stdbool.h>
#include <stddef.h>
#include <stdint.h>

struct gap {
    size_t place;    /* where neither a symbol nor a comment begins */
    size_t wrong;    /* what is wrong stands here: the same place, or one further on in what begins there; the text's length at its end */
    const char *why; /* in words */
};

/* True, and the number of symbols; or false, and the first gap. The text may have any length. */
bool scan_text(const uint8_t *text, size_t length, size_t *symbols, struct gap *gap);

/* A place as an editor counts: line and column from 1. */
struct spot {
    size_t line, column;
};

struct spot spot_of(const uint8_t *text, size_t place);

#endif
