/* explain.h: where a refused table is wrong. A second checker in plain C, with nothing proved: who uses it compares its number with that of
 * joyce_check. */
#ifndef EXPLAIN_H
#define EXPLAIN_H

#include <stddef.h>
#include <stdint.h>
#include <stdio.h>

enum { NOWHERE = -1 };

struct fault {
    uint32_t verdict;          /* 0, or 2..9 */
    int section, entry, field; /* NOWHERE: the section's count, or the entry as a whole; SECTIONS: what follows the last section */
    size_t byte;               /* where that stands */
    char there[100];           /* what stands there */
    char why[240];             /* the rule that it breaks */
};

/* The first fault of the lowest number that applies. */
void explain(const uint8_t *table, size_t length, struct fault *fault);

/* Two lines: where, and why. */
void print_fault(FILE *out, const struct fault *fault);

#endif
