/* check.h: a table that a command works on. */
#ifndef CHECK_H
#define CHECK_H

#include "explain.h"
#include "labels.h"
#include "table.h"
#include "tool.h"

struct program {
    struct bytes bytes;
    struct table sections;
    struct labels *labels; /* null where there are none */
};

/* The library's verdict, and where the table is wrong: REFUSED; CONTRADICTED, with a message, where the two do not agree. */
int judge_table(const char *name, struct bytes table, struct fault *fault, bool is_accepted_said);

/* Reads an accepted table, and the names in a file, or beside the table where names is null; else says what is wrong. */
int open_program(const char *name, const char *names, bool is_accepted_said, struct program *p);

void close_program(struct program *p);

#endif
