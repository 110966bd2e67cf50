/* A decoded program table, for the plain checker and the plain interpreter alone. */
#ifndef PROGRAM_H
#define PROGRAM_H

#include <stdbool.h>
#include <stddef.h>
#include <stdint.h>

enum { INTEGER, BOOLEAN, CHARACTER, DECLARED };          /* types */
enum { RECORD = 1, ARRAY, PROCESS };                     /* kinds of declared types */
enum { PROGRAM, MODULE, PROCEDURE };                     /* kinds of blocks */
enum { LOCAL, VALUE_PARAMETER, VAR_PARAMETER };          /* modes */
enum { CONSTANT, WHOLE, FIELD, ELEMENT, VALUE, UNARY, BINARY, TRANSFER, TEXT };
enum { SKIP, ASSIGN, LOCAL_CALL, PROCESS_CALL, CREATE, START, IF, WHILE, WHEN, CYCLE, ARM, END, WRITE, BLOCK_END };
enum { NONE = -1 };
enum { TEXT_TYPE = 258 }; /* plus its even length: the type of a string constant, above all numbers of types */

struct type { uint8_t kind, p, q; uint16_t low, high; };
struct variable { uint8_t mode, type; };
struct block { uint8_t kind, owner, first, parameters, variables, statement; uint16_t space; };
struct node { uint8_t kind, p, q; uint16_t v; };
struct statement { uint8_t kind, a, b, c, d, link; };

struct program {
    int types, fields, variables, blocks, arguments, nodes, statements, characters;
    struct type type[258]; /* by type number, from DECLARED on */
    uint8_t field[256];
    struct variable variable[256];
    struct block block[256];
    uint8_t argument[256];
    struct node node[256];
    struct statement statement[256];
    uint8_t character[256];
    int16_t type_of[256];  /* the type of a node, NONE where it has none */
    uint8_t words[258];    /* the words of a type */
    uint8_t block_of[256]; /* the block of a node */
    uint8_t block_at[256]; /* the block of a statement */
    uint8_t home[256];     /* the block of a variable */
};

/* The verdict on a table; where it is 0, the program is filled. */
uint32_t plain_decode(struct program *g, const uint8_t *table, size_t length);

static inline int integer(int w)
{
    return (int16_t)w;
}

static inline int elements(const struct type *t)
{
    return integer(t->high) - integer(t->low) + 1;
}

/* The words of a value of a type, which may be that of a string constant. */
static inline int value_words(const struct program *g, int type)
{
    return type >= TEXT_TYPE ? type - TEXT_TYPE : g->words[type];
}

#endif
