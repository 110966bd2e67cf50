/* tests.h: what the tests of joyce_symbols share. A second opinion is the plain scanner of bench/, and a third that of the tool. */
#ifndef TESTS_H
#define TESTS_H

#include "joyce.h"

#include <stdbool.h>

/* An outside vector: a text, the length of the lent slice, the result, and the bytes that it begins with afterwards. */
struct vector {
    const uint8_t *text, *bytes;
    size_t length, room;
    uint32_t result;
};

extern struct vector *vectors;
extern size_t vector_count;

/* Notes why a test fails. False, so that a test can end with it. */
bool bad(const char *format, ...);

/* A pseudo-random number below a limit; set the seed first. */
extern uint64_t seed;
uint32_t below(uint32_t limit);

/* joyce_symbols on copies of exactly these lengths: the result is as said, out begins with these bytes, all else is as it was. */
bool symbols_are(const uint8_t *text, size_t length, size_t room, uint32_t result, const uint8_t *bytes);

/* The same, as the plain scanner says; and the tool's scanner says so too. */
bool agree(const uint8_t *text, size_t length, size_t room);

/* random.c */
bool random_bytes(void);
bool random_signs(void);
bool random_parts(void);
bool damaged(void);

#endif
