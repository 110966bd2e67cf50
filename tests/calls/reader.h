/* reader.h: reads tables and states from outside, by joyce.h and docs/STATE.md, to hold the library to them. */
#ifndef READER_H
#define READER_H

#include <stdbool.h>
#include <stddef.h>
#include <stdint.h>

struct program {
    int counts[7];
    const uint8_t *sections[7];
    int words[258]; /* of each type */
};

/* An accepted table. */
void read_program(struct program *p, const uint8_t *table, size_t length);

int block_kind(const struct program *p, int block);
int first_variable(const struct program *p, int block);
int variable_count(const struct program *p, int block);
int variable_type(const struct program *p, int variable);

/* The rule of the third test, from outside: each reference of a module variable, value parameter or local in use is empty, or names a created
 * process of its module. Counts the references that are not empty. */
bool references_hold(const struct program *p, const uint8_t *state, unsigned *named);

/* What joyce_look returns, by the layout. */
uint32_t look_by_layout(const struct program *p, const uint8_t *state, uint32_t process, uint32_t variable, uint32_t place);

/* The mark of a location, which is a word of an area. */
bool is_marked(const uint8_t *state, size_t location);

#endif
