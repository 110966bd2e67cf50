/* view.h: a state of an accepted program in words, by the layout of docs/STATE.md. The state meets the state rule. */
#ifndef VIEW_H
#define VIEW_H

#include "text.h"

/* The status of a process, as its record has it. */
enum { NOT_CREATED, CREATED, STARTED, ENDED };

/* The control record of a process. */
struct record {
    unsigned status, module, statement, frame, top, works, holder, depth;
};

struct view {
    struct text text;
    const uint8_t *state;
    unsigned words[DECLARED + 255]; /* of each type */
};

/* Fills the words of types. */
void view_prepare(struct view *v, const struct text *text, const uint8_t *state);

unsigned state_word(const uint8_t *state, unsigned i);

/* The word at a location, which is a word of an area, was given a value. */
bool is_marked(const uint8_t *state, unsigned location);

/* The words that a variable takes in its area or frame. */
unsigned variable_words(const struct view *v, unsigned variable);

unsigned created_of(const uint8_t *state);

/* 0, or the number by which the run failed. */
unsigned failure_of(const uint8_t *state);

/* The run was begun with 1: its variables begin as zeros. */
bool begins_with_zeros(const uint8_t *state);

/* The record of a process that is created. */
struct record record_of(const uint8_t *state, unsigned process);

/* The block that a created process carries out. */
unsigned block_of(const uint8_t *state, unsigned process);

/* A process: what it is, its calls from the innermost outwards, the statement that each stands at, and the variables of each. */
void print_process(struct view *v, unsigned process);

#endif
