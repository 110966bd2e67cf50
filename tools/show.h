/* show.h: tables as text: v3 is variable 3, b2 block 2, t4 type 4, n5 node 5. */
#ifndef SHOW_H
#define SHOW_H

#include "explain.h"
#include "text.h"

/* An accepted table, in the manner of a program. */
void show_program(struct text *x);

/* The entry of a fault in words, and the statement that it is a part of, as far as they can be found. */
void show_place(struct text *x, const struct fault *fault);

/* Any table: section by section, entry by entry, with a mark at a fault, which may be null. */
void show_entries(struct text *x, const struct fault *fault);

#endif
