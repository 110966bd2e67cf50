/* builder.h: writes a program table (see joyce.h) entry by entry, in the order in which one writes the text of a program.
 *
 *     static struct builder b;
 *     start_table(&b);
 *     int program = add_program(&b);
 *     int n = add_local(&b, program, INTEGER);
 *     begin_body(&b, program);
 *     put_assign(&b, whole(&b, n), binary(&b, '+', integer(&b, 1), integer(&b, 2)));      n := 1 + 2
 *     end_body(&b);
 *     size_t length = finish_table(&b, bytes, sizeof bytes);
 *     if (length == 0)
 *         puts(builder_mistake(&b));
 *
 * Functions that add types, blocks, variables and nodes return a number to name the entry by; block numbers and type numbers are those of
 * the table, and so are those of variables where the variables of each block are added before those of the next. A node may be used once.
 *
 * Mistakes. A call that is given a wrong number, comes at a wrong place or finds its section full adds nothing, returns -1 and is remembered; so
 * calls need no test. finish_table then writes nothing, and builder_mistake says of the first such call which it was, counted from
 * start_table on, and why. What is left for joyce_check to judge are types, sizes and scopes: the refusals 7 to 9. Copy it. */
#ifndef BUILDER_H
#define BUILDER_H

#include <limits.h>
#include <stdbool.h>
#include <stddef.h>
#include <stdint.h>

#ifdef __cplusplus
extern "C" {
#endif

enum { INTEGER, BOOLEAN, CHARACTER };               /* the standard types */
enum { ENTRIES = 255 };                             /* the most entries of a section */

struct node {
    int kind, p, q, v;
    int call;                                       /* the call that added it */
    bool is_used;
};

struct statement {
    int block, kind, a, b, first, count, link;      /* first and count: its arguments */
    int call;
};

struct builder {
    int types[ENTRIES][5], type_calls[ENTRIES], fields[ENTRIES], arguments[ENTRIES];
    char characters[ENTRIES];                       /* of the string constants, in the order of the calls */
    int modes[ENTRIES], variable_types[ENTRIES], variable_blocks[ENTRIES];
    int block_kinds[ENTRIES], block_owners[ENTRIES], block_spaces[ENTRIES];
    bool has_body[ENTRIES];
    struct node nodes[ENTRIES];
    struct statement statements[ENTRIES];
    int type_count, field_count, variable_count, block_count, argument_count, node_count, statement_count, character_count;
    int body;                                       /* the block whose statements are being written, or -1 */
    int openers[ENTRIES], arms[ENTRIES], depth;     /* the openers not ended yet, each with its last arm */
    int call;                                       /* how many calls there were */
    const char *call_name;                          /* the last one's name */
    char mistake[200];                              /* the first mistake; empty where there is none */
};

void start_table(struct builder *b);

/* Writes the table; its length, or 0 where there was a mistake, or the room is too small. */
size_t finish_table(struct builder *b, uint8_t *bytes, size_t room);

/* The first mistake in words, as 'call 12, put_assign: there is no node 300'; null where there is none. */
const char *builder_mistake(const struct builder *b);

/* A list of numbers is announced by its count. The macros below end it with a mark, so that a wrong count is a mistake and nothing worse. */
#define BUILDER_LIST_END INT_MIN

/* types */
int record_type(struct builder *b, int count, ...); /* the types of the fields */
int array_type(struct builder *b, int index, int element_type, int low, int high);
int process_type(struct builder *b, int module);    /* the module may be added later */

/* blocks; the program is the first */
int add_program(struct builder *b);
int add_module(struct builder *b);
int add_procedure(struct builder *b, int owner);

/* What the program or a module reserves for calls of its recursive procedures, beyond one call of each of its procedures: bytes, even, 0..510. Where
 * it is not said it is 0, which is right where no procedure calls itself. */
void set_space(struct builder *b, int block, int space);

/* variables of a block, its parameters first */
int add_value_parameter(struct builder *b, int block, int type);
int add_var_parameter(struct builder *b, int block, int type);
int add_local(struct builder *b, int block, int type);

/* nodes: variables */
int whole(struct builder *b, int variable);
int field(struct builder *b, int node, int place);
int element(struct builder *b, int node, int index);

/* nodes: expressions */
int integer(struct builder *b, int number);
int boolean(struct builder *b, bool is_true);
int character(struct builder *b, int number);
int text(struct builder *b, const char *characters); /* a string constant: text(b, "Joyce") */
int text_of(struct builder *b, const char *characters, size_t length); /* one with characters 0 in it */
int value(struct builder *b, int variable);         /* of a whole variable */
int value_at(struct builder *b, int node);          /* of a field or an element */
int minus(struct builder *b, int node);
int inverse(struct builder *b, int node);           /* not */
int device(struct builder *b, int node);            /* val: the device word with that address */
int transfer(struct builder *b, int node, int type);
/* = '=', <> '#', < '<', <= 'l', > '>', >= 'g', + '+', - '-', * '*', / '/', mod '%', and '&', or '|' */
int binary(struct builder *b, char sign, int left, int right);

/* statements, between begin_body and end_body */
void begin_body(struct builder *b, int block);
void end_body(struct builder *b);
void put_skip(struct builder *b);
void put_assign(struct builder *b, int variable, int expression);
void put_call(struct builder *b, int procedure, int count, ...);                  /* a local call; the arguments */
void put_process_call(struct builder *b, int reference, int procedure, int count, ...);
void put_create(struct builder *b, int reference);
void put_start(struct builder *b, int reference, int count, ...);
void put_write(struct builder *b, int address, int expression);
void put_if(struct builder *b);                     /* an opener: then its arms, then put_end */
void put_while(struct builder *b);
void put_when(struct builder *b);
void put_cycle(struct builder *b);
void put_arm(struct builder *b, int guard);
void put_end(struct builder *b);

#define record_type(...) record_type(__VA_ARGS__, BUILDER_LIST_END)
#define put_call(...) put_call(__VA_ARGS__, BUILDER_LIST_END)
#define put_process_call(...) put_process_call(__VA_ARGS__, BUILDER_LIST_END)
#define put_start(...) put_start(__VA_ARGS__, BUILDER_LIST_END)

#ifdef __cplusplus
}
#endif

#endif
