/* names.h: what the numbers of joyce.h mean, in words. */
#ifndef NAMES_H
#define NAMES_H

#include <stdint.h>

/* a result of a call: 0..11, 25, 32 */
const char *result_words(uint32_t result);

/* the answer of a step */
const char *answer_words(unsigned answer);

/* Prints every number with its words. */
void print_numbers(void);

#endif
