/* text.h: entries of any table as text, in the report's grammar as far as that goes. Where a number leads nowhere, ? stands. */
#ifndef TEXT_H
#define TEXT_H

#include "labels.h"
#include "table.h"

#include <stdio.h>

struct text {
    const struct table *table;
    const struct labels *labels; /* or null */
    FILE *out;
    int left; /* how many nodes may still be written: a refused table can have more than is good */
};

/* A name, or v3, b2, t4. */
void write_variable_name(const struct text *x, int variable);
void write_block_name(const struct text *x, int block);
void write_type_name(const struct text *x, int type);
/* The field of a record, by its place. */
void write_field_name(const struct text *x, int record, int place);

/* What a type is: 'array 1..4 of integer' */
void write_type(const struct text *x, int type);
void write_constant(const struct text *x, int type, int number);
/* A character between the apostrophes of a string. *is_number says whether the one before was written as its number: a digit is then one too. */
void write_in_string(FILE *out, int character, bool *is_number);
void write_node(struct text *x, int node);
void write_statement(struct text *x, int statement);

#endif
