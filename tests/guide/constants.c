/* The numbers of a table in joyce.h are those that the library means: each operator gives its result, each kind is known and the one after the
 * last is not (verdict 3), and a program that has every kind of entry is accepted and runs. */
#include "joyce.h"

#include <stdio.h>
#include <string.h>

static uint8_t table[JOYCE_TABLE_MAX], state[JOYCE_STATE_SIZE], page[JOYCE_PAGE_SIZE];
static size_t length;
static uint32_t start = JOYCE_START_UNSET;
static int failures;

static void report(const char *name, int is_right)
{
    printf("%s guide/%s\n", is_right ? "ok" : "FAIL", name);
    failures += !is_right;
}

static void put(int number)
{
    table[length++] = (uint8_t)((unsigned)number & 0xffu);
}

static void put_word(int number)
{
    put(number);
    put((int)((unsigned)number >> 8));
}

static void type(int kind, int p, int q, int low, int high)
{
    put(kind), put(p), put(q), put_word(low), put_word(high);
}

static void variable(int mode, int of)
{
    put(mode), put(of);
}

static void block(int kind, int owner, int first, int parameters, int variables, int statement)
{
    put(kind), put(owner), put(first), put(parameters), put(variables), put(statement), put_word(0);
}

static void node(int kind, int p, int q, int v)
{
    put(kind), put(p), put(q), put_word(v);
}

static void statement(int kind, int a, int b, int c, int d, int link)
{
    put(kind), put(a), put(b), put(c), put(d), put(link);
}

/* How many of the steps answer as wanted; below 0, a refusal. */
static int steps(const uint8_t *schedule, size_t count, const uint8_t *wanted)
{
    uint8_t answers[64];
    int right = 0;
    uint32_t refused = joyce_begin(table, length, state, sizeof state, start);
    memset(page, 0, sizeof page);
    if (refused == JOYCE_OK)
        refused = joyce_run(table, length, state, sizeof state, page, sizeof page, schedule, count, answers, count);
    if (refused != JOYCE_OK)
        return -(int)refused;
    for (size_t i = 0; i < count; i++)
        right += answers[i] == wanted[i];
    return right;
}

/* ---- operators: write(-2, x operator y : integer) */

static const uint8_t turn[1] = {1}, done[1] = {JOYCE_DONE};

static void operation(int x, int y, int is_unary, int is_boolean, int operation)
{
    length = 0;
    put(0), put(0), put(0), put(1);
    block(JOYCE_BLOCK_PROGRAM, 0, 0, 0, 0, 0);
    put(0), put(is_unary ? 4 : 5);
    node(JOYCE_NODE_CONSTANT, JOYCE_INTEGER, 0, -2);
    node(JOYCE_NODE_CONSTANT, is_boolean ? JOYCE_BOOLEAN : JOYCE_INTEGER, 0, x);
    if (is_unary) {
        node(JOYCE_NODE_UNARY, 1, operation, 0);
        node(JOYCE_NODE_TRANSFER, 2, JOYCE_INTEGER, 0);
    } else {
        node(JOYCE_NODE_CONSTANT, is_boolean ? JOYCE_BOOLEAN : JOYCE_INTEGER, 0, y);
        node(JOYCE_NODE_BINARY, 1, 2, operation);
        node(JOYCE_NODE_TRANSFER, 3, JOYCE_INTEGER, 0);
    }
    put(2);
    statement(JOYCE_STATEMENT_WRITE, 0, is_unary ? 3 : 4, 0, 0, 0);
    statement(JOYCE_STATEMENT_BLOCK_END, 0, 0, 0, 0, 0);
}

static int gives(int result)
{
    return steps(turn, 1, done) == 1 && joyce_get(page, -2) == result;
}

static int binary(int of, int x, int y, int result)
{
    operation(x, y, 0, 0, of);
    return gives(result);
}

static int truth(int of, int results) /* of false false, false true, true false, true true, a bit each from the left */
{
    int right = 1;
    for (int i = 0; i < 4; i++) {
        operation(i / 2, i % 2, 0, 1, of);
        right &= gives(results >> (3 - i) & 1);
    }
    return right;
}

static void operators(void)
{
    report("equal", binary(JOYCE_BINARY_EQUAL, 7, 7, 1) && binary(JOYCE_BINARY_EQUAL, 7, 2, 0));
    report("unequal", binary(JOYCE_BINARY_UNEQUAL, 7, 7, 0) && binary(JOYCE_BINARY_UNEQUAL, 7, 2, 1));
    report("less", binary(JOYCE_BINARY_LESS, 2, 7, 1) && binary(JOYCE_BINARY_LESS, 7, 7, 0) && binary(JOYCE_BINARY_LESS, 7, 2, 0));
    report("at_most", binary(JOYCE_BINARY_AT_MOST, 2, 7, 1) && binary(JOYCE_BINARY_AT_MOST, 7, 7, 1) && binary(JOYCE_BINARY_AT_MOST, 7, 2, 0));
    report("greater", binary(JOYCE_BINARY_GREATER, 2, 7, 0) && binary(JOYCE_BINARY_GREATER, 7, 7, 0) && binary(JOYCE_BINARY_GREATER, 7, 2, 1));
    report("at_least", binary(JOYCE_BINARY_AT_LEAST, 2, 7, 0) && binary(JOYCE_BINARY_AT_LEAST, 7, 7, 1) && binary(JOYCE_BINARY_AT_LEAST, 7, 2, 1));
    report("add", binary(JOYCE_BINARY_ADD, -7, 2, -5));
    report("subtract", binary(JOYCE_BINARY_SUBTRACT, -7, 2, -9));
    report("multiply", binary(JOYCE_BINARY_MULTIPLY, -7, 2, -14));
    report("divide", binary(JOYCE_BINARY_DIVIDE, -7, 2, -3));
    report("mod", binary(JOYCE_BINARY_MOD, -7, 2, -1));
    report("and", binary(JOYCE_BINARY_AND, 12, 10, 8) && truth(JOYCE_BINARY_AND, 1));
    report("or", binary(JOYCE_BINARY_OR, 12, 10, 14) && truth(JOYCE_BINARY_OR, 7));
    operation(7, 0, 1, 0, JOYCE_UNARY_MINUS);
    report("minus", gives(-7));
    operation(7, 0, 1, 0, JOYCE_UNARY_NOT);
    int right = gives(-8);
    operation(1, 0, 1, 1, JOYCE_UNARY_NOT);
    report("not", right && gives(0));
    operation(-8192, 0, 1, 0, JOYCE_UNARY_VAL);
    right = gives(0);
    joyce_put(page, JOYCE_ADDRESS_MIN, 1979);
    static uint8_t answers[1];
    joyce_begin(table, length, state, sizeof state, JOYCE_START_UNSET);
    joyce_run(table, length, state, sizeof state, page, sizeof page, turn, 1, answers, 1);
    report("val", right && joyce_get(page, -2) == 1979);

    operation(7, 2, 0, 0, JOYCE_BINARY_OR + 1);
    right = joyce_check(table, length) == JOYCE_KINDS;
    operation(7, 2, 0, 0, JOYCE_BINARY_EQUAL - 1);
    right &= joyce_check(table, length) == JOYCE_KINDS;
    operation(7, 2, 1, 0, JOYCE_UNARY_VAL + 1);
    report("no_operator", right && joyce_check(table, length) == JOYCE_KINDS);
}

/* ---- every kind of entry
 *
 *     type pair = record u: integer; v: integer end; row = array 1..2 of pair; title = array 1..4 of char
 *     process server(k: integer)
 *       var open: boolean
 *       procedure ask(var x: integer; y: integer) begin when open do x := k + y end end
 *       begin open := true; cycle false do skip end end
 *     var s: server; r: row; n: integer
 *     procedure mark(t: title) begin if t = 'Joyc' do write(-2, n) end end
 *     begin create s; start s(5); while n < 1 do n := n + 1 end; s.ask(r[2].v, n); n := r[2].v; mark('Joyce'); skip end
 *
 * It counts from 0, and so begins with zeros. */

enum { PAIR = JOYCE_DECLARED, ROW, SERVER, TITLE };
enum { TYPES_AT = 1, FIELDS_AT = TYPES_AT + 4 * 7 + 1, VARIABLES_AT = FIELDS_AT + 2 + 1, BLOCKS_AT = VARIABLES_AT + 8 * 2 + 1,
       ARGUMENTS_AT = BLOCKS_AT + 4 * 8 + 1, NODES_AT = ARGUMENTS_AT + 4 + 1, STATEMENTS_AT = NODES_AT + 45 * 5 + 1,
       CHARACTERS_AT = STATEMENTS_AT + 27 * 6 + 1 };

static void whole_program(void)
{
    length = 0;
    put(4);
    type(JOYCE_TYPE_RECORD, 0, 2, 0, 0);
    type(JOYCE_TYPE_ARRAY, JOYCE_INTEGER, PAIR, 1, 2);
    type(JOYCE_TYPE_PROCESS, 1, 0, 0, 0);
    type(JOYCE_TYPE_ARRAY, JOYCE_INTEGER, JOYCE_CHARACTER, 1, 4);
    put(2);
    put(JOYCE_INTEGER), put(JOYCE_INTEGER);
    put(8);
    variable(JOYCE_MODE_LOCAL, SERVER);         /* 0 s */
    variable(JOYCE_MODE_LOCAL, ROW);            /* 1 r */
    variable(JOYCE_MODE_LOCAL, JOYCE_INTEGER);  /* 2 n */
    variable(JOYCE_MODE_VALUE, JOYCE_INTEGER);  /* 3 k */
    variable(JOYCE_MODE_LOCAL, JOYCE_BOOLEAN);  /* 4 open */
    variable(JOYCE_MODE_VAR, JOYCE_INTEGER);    /* 5 x */
    variable(JOYCE_MODE_VALUE, JOYCE_INTEGER);  /* 6 y */
    variable(JOYCE_MODE_VALUE, TITLE);          /* 7 t */
    put(4);
    block(JOYCE_BLOCK_PROGRAM, 0, 0, 0, 3, 0);
    block(JOYCE_BLOCK_MODULE, 1, 3, 1, 2, 11);
    block(JOYCE_BLOCK_PROCEDURE, 1, 5, 2, 2, 17);
    block(JOYCE_BLOCK_PROCEDURE, 0, 7, 1, 1, 22);
    put(4);
    put(2), put(16), put(18), put(44);
    put(45);
    node(JOYCE_NODE_WHOLE, 0, 0, 0);                            /* 0 s */
    node(JOYCE_NODE_WHOLE, 0, 0, 0);                            /* 1 s */
    node(JOYCE_NODE_CONSTANT, JOYCE_INTEGER, 0, 5);             /* 2 */
    node(JOYCE_NODE_WHOLE, 2, 0, 0);
    node(JOYCE_NODE_VALUE, 3, 0, 0);
    node(JOYCE_NODE_CONSTANT, JOYCE_INTEGER, 0, 1);
    node(JOYCE_NODE_BINARY, 4, 5, JOYCE_BINARY_LESS);           /* 6 n < 1 */
    node(JOYCE_NODE_WHOLE, 2, 0, 0);                            /* 7 n */
    node(JOYCE_NODE_WHOLE, 2, 0, 0);
    node(JOYCE_NODE_VALUE, 8, 0, 0);
    node(JOYCE_NODE_CONSTANT, JOYCE_INTEGER, 0, 1);
    node(JOYCE_NODE_BINARY, 9, 10, JOYCE_BINARY_ADD);           /* 11 n + 1 */
    node(JOYCE_NODE_WHOLE, 0, 0, 0);                            /* 12 s */
    node(JOYCE_NODE_WHOLE, 1, 0, 0);
    node(JOYCE_NODE_CONSTANT, JOYCE_INTEGER, 0, 2);
    node(JOYCE_NODE_ELEMENT, 13, 14, 0);
    node(JOYCE_NODE_FIELD, 15, 1, 0);                           /* 16 r[2].v */
    node(JOYCE_NODE_WHOLE, 2, 0, 0);
    node(JOYCE_NODE_VALUE, 17, 0, 0);                           /* 18 n */
    node(JOYCE_NODE_WHOLE, 2, 0, 0);                            /* 19 n */
    node(JOYCE_NODE_WHOLE, 1, 0, 0);
    node(JOYCE_NODE_CONSTANT, JOYCE_INTEGER, 0, 2);
    node(JOYCE_NODE_ELEMENT, 20, 21, 0);
    node(JOYCE_NODE_FIELD, 22, 1, 0);
    node(JOYCE_NODE_VALUE, 23, 0, 0);                           /* 24 r[2].v */
    node(JOYCE_NODE_WHOLE, 4, 0, 0);                            /* 25 open */
    node(JOYCE_NODE_CONSTANT, JOYCE_INTEGER, 0, 1);
    node(JOYCE_NODE_TRANSFER, 26, JOYCE_BOOLEAN, 0);            /* 27 true */
    node(JOYCE_NODE_CONSTANT, JOYCE_BOOLEAN, 0, 0);             /* 28 false */
    node(JOYCE_NODE_WHOLE, 4, 0, 0);
    node(JOYCE_NODE_VALUE, 29, 0, 0);                           /* 30 open */
    node(JOYCE_NODE_WHOLE, 5, 0, 0);                            /* 31 x */
    node(JOYCE_NODE_WHOLE, 3, 0, 0);
    node(JOYCE_NODE_VALUE, 32, 0, 0);
    node(JOYCE_NODE_WHOLE, 6, 0, 0);
    node(JOYCE_NODE_VALUE, 34, 0, 0);
    node(JOYCE_NODE_BINARY, 33, 35, JOYCE_BINARY_ADD);          /* 36 k + y */
    node(JOYCE_NODE_CONSTANT, JOYCE_INTEGER, 0, -2);            /* 37 */
    node(JOYCE_NODE_WHOLE, 2, 0, 0);
    node(JOYCE_NODE_VALUE, 38, 0, 0);                           /* 39 n */
    node(JOYCE_NODE_WHOLE, 7, 0, 0);
    node(JOYCE_NODE_VALUE, 40, 0, 0);
    node(JOYCE_NODE_STRING, 0, 4, 0);
    node(JOYCE_NODE_BINARY, 41, 42, JOYCE_BINARY_EQUAL);        /* 43 t = 'Joyc' */
    node(JOYCE_NODE_STRING, 4, 5, 0);                           /* 44 'Joyce' */
    put(27);
    statement(JOYCE_STATEMENT_CREATE, 0, 0, 0, 0, 0);
    statement(JOYCE_STATEMENT_START, 1, 0, 0, 1, 0);
    statement(JOYCE_STATEMENT_WHILE, 0, 0, 0, 0, 0);            /* 2 */
    statement(JOYCE_STATEMENT_ARM, 6, 0, 0, 0, 5);
    statement(JOYCE_STATEMENT_ASSIGN, 7, 11, 0, 0, 0);
    statement(JOYCE_STATEMENT_END, 0, 0, 0, 0, 2);
    statement(JOYCE_STATEMENT_PROCESS_CALL, 12, 2, 1, 2, 0);    /* 6 */
    statement(JOYCE_STATEMENT_ASSIGN, 19, 24, 0, 0, 0);
    statement(JOYCE_STATEMENT_CALL, 3, 0, 3, 1, 0);
    statement(JOYCE_STATEMENT_SKIP, 0, 0, 0, 0, 0);
    statement(JOYCE_STATEMENT_BLOCK_END, 0, 0, 0, 0, 0);
    statement(JOYCE_STATEMENT_ASSIGN, 25, 27, 0, 0, 0);         /* 11 */
    statement(JOYCE_STATEMENT_CYCLE, 0, 0, 0, 0, 0);
    statement(JOYCE_STATEMENT_ARM, 28, 0, 0, 0, 15);
    statement(JOYCE_STATEMENT_SKIP, 0, 0, 0, 0, 0);
    statement(JOYCE_STATEMENT_END, 0, 0, 0, 0, 12);
    statement(JOYCE_STATEMENT_BLOCK_END, 1, 0, 0, 0, 0);
    statement(JOYCE_STATEMENT_WHEN, 0, 0, 0, 0, 0);             /* 17 */
    statement(JOYCE_STATEMENT_ARM, 30, 0, 0, 0, 20);
    statement(JOYCE_STATEMENT_ASSIGN, 31, 36, 0, 0, 0);
    statement(JOYCE_STATEMENT_END, 0, 0, 0, 0, 17);
    statement(JOYCE_STATEMENT_BLOCK_END, 2, 0, 0, 0, 0);
    statement(JOYCE_STATEMENT_IF, 0, 0, 0, 0, 0);               /* 22 */
    statement(JOYCE_STATEMENT_ARM, 43, 0, 0, 0, 25);
    statement(JOYCE_STATEMENT_WRITE, 37, 39, 0, 0, 0);
    statement(JOYCE_STATEMENT_END, 0, 0, 0, 0, 22);
    statement(JOYCE_STATEMENT_BLOCK_END, 3, 0, 0, 0, 0);
    put(9);
    for (const char *at = "JoycJoyce"; *at; at++)
        put(*at);
}

static int unknown(size_t at, int kind)
{
    whole_program();
    table[at] = (uint8_t)kind;
    return joyce_check(table, length) == JOYCE_KINDS;
}

/* The verdict where block 0 has that space. */
static uint32_t space_verdict(int space)
{
    whole_program();
    table[BLOCKS_AT + 6] = (uint8_t)(space % 256);
    table[BLOCKS_AT + 7] = (uint8_t)(space / 256);
    return joyce_check(table, length);
}

static void entries(void)
{
    static const uint8_t turns[22] = {1, 1, 1, 1, 1, 1, 1, 2, 2, 1, 1, 1, 1, 1, 1, 1, 1, 1, 1, 1, 1, 1};
    static const uint8_t wanted[22] = {0, 0, 0, 0, 0, 0, JOYCE_WAITS, 0, JOYCE_WAITS, 0, 0, 0, 0, 0, 0, 0, 0, 0, 0, 0, 0, JOYCE_ENDED};
    static const uint8_t unset[4] = {0, 0, JOYCE_UNSET, JOYCE_UNSET}; /* while n < 1 */
    whole_program();
    report("unset", steps(turns, 4, unset) == 4 && joyce_look(table, length, state, sizeof state, 1, 2, 0) == JOYCE_UNSET_WORD);
    start = JOYCE_START_ZEROS;
    report("every_kind", joyce_check(table, length) == JOYCE_ACCEPTED && steps(turns, 22, wanted) == 22 && joyce_get(page, -2) == 6);
    report("places", joyce_look(table, length, state, sizeof state, 1, 1, 3) == JOYCE_WORD + 6);
    report("no_type", unknown(TYPES_AT, JOYCE_TYPE_PROCESS + 1) && unknown(TYPES_AT, JOYCE_TYPE_RECORD - 1));
    report("no_mode", unknown(VARIABLES_AT, JOYCE_MODE_VAR + 1));
    report("no_block", unknown(BLOCKS_AT, JOYCE_BLOCK_PROCEDURE + 1));
    report("no_node", unknown(NODES_AT, JOYCE_NODE_STRING + 1));
    report("no_statement", unknown(STATEMENTS_AT, JOYCE_STATEMENT_BLOCK_END + 1));
    whole_program();
    table[CHARACTERS_AT] = JOYCE_CHARACTER_MAX;
    report("character", joyce_check(table, length) == JOYCE_ACCEPTED);
    table[CHARACTERS_AT] = JOYCE_CHARACTER_MAX + 1;
    report("no_character", joyce_check(table, length) == JOYCE_TYPES);
    report("space", space_verdict(JOYCE_SPACE_MAX) == JOYCE_ACCEPTED && space_verdict(JOYCE_SPACE_MAX + 2) == JOYCE_NUMBERS);
}

int main(void)
{
    operators();
    entries();
    return failures != 0;
}
