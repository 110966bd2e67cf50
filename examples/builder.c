#include "builder.h"

#include <stdarg.h>
#include <stdio.h>
#include <string.h>

enum { RECORD = 1, ARRAY, PROCESS };
enum { PROGRAM, MODULE, PROCEDURE };
enum { LOCAL, VALUE_PARAMETER, VAR_PARAMETER };
enum { CONSTANT, WHOLE, FIELD, ELEMENT, VALUE, UNARY, BINARY, TRANSFER, STRING };
enum { SKIP, ASSIGN, CALL, PROCESS_CALL, CREATE, START, IF, WHILE, WHEN, CYCLE, ARM, END, WRITE, BLOCK_END };
enum { NONE = -1, DECLARED = 3, WORD_MIN = -32768, WORD_MAX = 32767, CHARACTER_MAX = 127, BYTE_MAX = 255, SPACE_MAX = 510 };

/* ---- mistakes */

/* Keeps the first mistake. False, so that a test can end with it. */
static bool blame_call(struct builder *b, int call, const char *name, const char *why, int first, int second)
{
    if (b->mistake[0])
        return false;
    int length = snprintf(b->mistake, sizeof b->mistake, "call %d, %s: ", call, name);
    snprintf(b->mistake + length, sizeof b->mistake - (size_t)length, why, first, second);
    return false;
}

/* The reason has room for one number. */
static bool blame(struct builder *b, const char *why, int number)
{
    return blame_call(b, b->call, b->call_name, why, number, 0);
}

static void enter(struct builder *b, const char *name)
{
    b->call++;
    b->call_name = name;
}

const char *builder_mistake(const struct builder *b)
{
    return b->mistake[0] ? b->mistake : NULL;
}

void start_table(struct builder *b)
{
    memset(b, 0, sizeof *b);
    b->body = NONE;
}

/* ---- tests of what a call is given */

static bool has_room(struct builder *b, int count, const char *full)
{
    return count < ENTRIES || blame(b, full, ENTRIES);
}

static bool is_between(struct builder *b, int number, int low, int high, const char *why)
{
    return (number >= low && number <= high) || blame(b, why, number);
}

/* A table names a type by a byte. */
static bool is_type(struct builder *b, int type)
{
    if (type > BYTE_MAX)
        return blame(b, "type %d cannot be named: the last that can is 255", type);
    return is_between(b, type, 0, DECLARED + b->type_count - 1, "there is no type %d");
}

static bool is_block(struct builder *b, int block)
{
    return is_between(b, block, 0, b->block_count - 1, "there is no block %d");
}

static bool is_procedure(struct builder *b, int block)
{
    return is_block(b, block) && (b->block_kinds[block] == PROCEDURE || blame(b, "block %d is no procedure", block));
}

static bool is_variable_kind(int kind)
{
    return kind == WHOLE || kind == FIELD || kind == ELEMENT;
}

/* Takes a node as an operand: it is there, and has no user yet. */
static bool take_node(struct builder *b, int node)
{
    if (!is_between(b, node, 0, b->node_count - 1, "there is no node %d"))
        return false;
    if (b->nodes[node].is_used)
        return blame(b, "node %d is used already", node);
    b->nodes[node].is_used = true;
    return true;
}

static bool take_variable(struct builder *b, int node)
{
    return take_node(b, node) && (is_variable_kind(b->nodes[node].kind) || blame(b, "node %d is an expression, and a variable is needed", node));
}

static bool take_expression(struct builder *b, int node)
{
    return take_node(b, node) && (!is_variable_kind(b->nodes[node].kind) || blame(b, "node %d is a variable, and an expression is needed", node));
}

/* The numbers of a list up to its mark: as many as were announced. */
static bool read_list(struct builder *b, int count, va_list list, int numbers[ENTRIES])
{
    int given = 0, number;
    while ((number = va_arg(list, int)) != BUILDER_LIST_END) {
        if (given < ENTRIES)
            numbers[given] = number;
        given++;
    }
    if (given != count)
        return blame_call(b, b->call, b->call_name, "%d are announced, and %d given", count, given);
    return given <= ENTRIES || blame(b, "a list has at most %d", ENTRIES);
}

/* ---- types */

static int add_type(struct builder *b, int kind, int p, int q, int low, int high)
{
    int fields[5] = {kind, p, q, low, high};
    if (!has_room(b, b->type_count, "a table has at most %d types"))
        return NONE;
    memcpy(b->types[b->type_count], fields, sizeof fields);
    b->type_calls[b->type_count] = b->call;
    return DECLARED + b->type_count++;
}

static bool add_field(struct builder *b, int type)
{
    if (!is_type(b, type) || !has_room(b, b->field_count, "a table has at most %d fields"))
        return false;
    b->fields[b->field_count++] = type;
    return true;
}

int (record_type)(struct builder *b, int count, ...)
{
    int types[ENTRIES], first = b->field_count;
    va_list list;
    enter(b, "record_type");
    va_start(list, count);
    bool is_list = read_list(b, count, list, types);
    va_end(list);
    if (!is_list || !is_between(b, count, 1, ENTRIES, "a record of %d fields"))
        return NONE;
    for (int i = 0; i < count; i++)
        if (!add_field(b, types[i]))
            return NONE;
    return add_type(b, RECORD, first, count, 0, 0);
}

int array_type(struct builder *b, int index, int element_type, int low, int high)
{
    enter(b, "array_type");
    if (!is_between(b, index, INTEGER, CHARACTER, "type %d is no type of an index") || !is_type(b, element_type))
        return NONE;
    if (!is_between(b, low, WORD_MIN, WORD_MAX, "the bound %d is no integer") ||
        !is_between(b, high, WORD_MIN, WORD_MAX, "the bound %d is no integer"))
        return NONE;
    return add_type(b, ARRAY, index, element_type, low, high);
}

int process_type(struct builder *b, int module)
{
    enter(b, "process_type");
    return is_between(b, module, 0, ENTRIES - 1, "there is no block %d") ? add_type(b, PROCESS, module, 0, 0, 0) : NONE;
}

/* ---- blocks and variables */

static int add_block(struct builder *b, int kind, int owner)
{
    int i = b->block_count;
    if (!has_room(b, i, "a table has at most %d blocks"))
        return NONE;
    b->block_kinds[i] = kind;
    b->block_owners[i] = owner == NONE ? i : owner;
    return b->block_count++;
}

int add_program(struct builder *b)
{
    enter(b, "add_program");
    if (b->block_count > 0) {
        blame(b, "there are %d blocks already, and the program is the first", b->block_count);
        return NONE;
    }
    return add_block(b, PROGRAM, NONE);
}

int add_module(struct builder *b)
{
    enter(b, "add_module");
    if (b->block_count == 0) {
        blame(b, "the program comes first", 0);
        return NONE;
    }
    return add_block(b, MODULE, NONE);
}

int add_procedure(struct builder *b, int owner)
{
    enter(b, "add_procedure");
    if (!is_block(b, owner))
        return NONE;
    if (b->block_kinds[owner] == PROCEDURE) {
        blame(b, "block %d is a procedure, and owns none", owner);
        return NONE;
    }
    return add_block(b, PROCEDURE, owner);
}

void set_space(struct builder *b, int block, int space)
{
    enter(b, "set_space");
    if (!is_block(b, block) || !is_between(b, space, 0, SPACE_MAX, "a space is 0..510 bytes, not %d"))
        return;
    if (b->block_kinds[block] == PROCEDURE)
        blame(b, "block %d is a procedure; the program or module that owns it has the space", block);
    else if (space % 2 != 0)
        blame(b, "a space is even, and %d is odd: a word has two bytes", space);
    else
        b->block_spaces[block] = space;
}

static bool has_locals(const struct builder *b, int block)
{
    for (int i = 0; i < b->variable_count; i++)
        if (b->variable_blocks[i] == block && b->modes[i] == LOCAL)
            return true;
    return false;
}

static int add_variable(struct builder *b, int block, int mode, int type)
{
    int i = b->variable_count;
    if (!is_block(b, block) || !is_type(b, type) || !has_room(b, i, "a table has at most %d variables"))
        return NONE;
    if (mode != LOCAL && (block == 0 || has_locals(b, block))) {
        blame(b, block == 0 ? "the program has no parameters" : "block %d has a local already, and parameters come first", block);
        return NONE;
    }
    b->variable_blocks[i] = block;
    b->modes[i] = mode;
    b->variable_types[i] = type;
    return b->variable_count++;
}

int add_value_parameter(struct builder *b, int block, int type)
{
    enter(b, "add_value_parameter");
    return add_variable(b, block, VALUE_PARAMETER, type);
}

int add_var_parameter(struct builder *b, int block, int type)
{
    enter(b, "add_var_parameter");
    return add_variable(b, block, VAR_PARAMETER, type);
}

int add_local(struct builder *b, int block, int type)
{
    enter(b, "add_local");
    return add_variable(b, block, LOCAL, type);
}

/* ---- nodes */

static int add_node(struct builder *b, int kind, int p, int q, int v)
{
    if (!has_room(b, b->node_count, "a table has at most %d nodes"))
        return NONE;
    b->nodes[b->node_count] = (struct node){kind, p, q, v, b->call, false};
    return b->node_count++;
}

static int add_whole(struct builder *b, int variable)
{
    return is_between(b, variable, 0, b->variable_count - 1, "there is no variable %d") ? add_node(b, WHOLE, variable, 0, 0) : NONE;
}

int whole(struct builder *b, int variable)
{
    enter(b, "whole");
    return add_whole(b, variable);
}

int field(struct builder *b, int node, int place)
{
    enter(b, "field");
    return is_between(b, place, 0, ENTRIES - 1, "there is no field %d") && take_variable(b, node) ? add_node(b, FIELD, node, place, 0) : NONE;
}

int element(struct builder *b, int node, int index)
{
    enter(b, "element");
    return take_variable(b, node) && take_expression(b, index) ? add_node(b, ELEMENT, node, index, 0) : NONE;
}

int integer(struct builder *b, int number)
{
    enter(b, "integer");
    return is_between(b, number, WORD_MIN, WORD_MAX, "%d is no integer, -32768..32767") ? add_node(b, CONSTANT, INTEGER, 0, number) : NONE;
}

int boolean(struct builder *b, bool is_true)
{
    enter(b, "boolean");
    return add_node(b, CONSTANT, BOOLEAN, 0, is_true);
}

int character(struct builder *b, int number)
{
    enter(b, "character");
    return is_between(b, number, 0, CHARACTER_MAX, "%d is no character, 0..127") ? add_node(b, CONSTANT, CHARACTER, 0, number) : NONE;
}

static int add_text(struct builder *b, const char *characters, size_t length)
{
    int first = b->character_count;
    if (length == 0) {
        blame(b, "a string constant has at least 1 character", 0);
        return NONE;
    }
    for (size_t i = 0; i < length; i++)
        if (!is_between(b, (unsigned char)characters[i], 0, CHARACTER_MAX, "%d is no character, 0..127"))
            return NONE;
    if (length > (size_t)(ENTRIES - first)) {
        blame(b, "a table has at most %d characters", ENTRIES);
        return NONE;
    }
    memcpy(b->characters + first, characters, length);
    b->character_count += (int)length;
    return add_node(b, STRING, first, (int)length, 0);
}

int text(struct builder *b, const char *characters)
{
    enter(b, "text");
    return add_text(b, characters, strlen(characters));
}

int text_of(struct builder *b, const char *characters, size_t length)
{
    enter(b, "text_of");
    return add_text(b, characters, length);
}

int value(struct builder *b, int variable)
{
    enter(b, "value");
    int node = add_whole(b, variable);
    return node != NONE && take_variable(b, node) ? add_node(b, VALUE, node, 0, 0) : NONE;
}

int value_at(struct builder *b, int node)
{
    enter(b, "value_at");
    return take_variable(b, node) ? add_node(b, VALUE, node, 0, 0) : NONE;
}

static int add_unary(struct builder *b, const char *name, int node, int sign)
{
    enter(b, name);
    return take_expression(b, node) ? add_node(b, UNARY, node, sign, 0) : NONE;
}

int minus(struct builder *b, int node)
{
    return add_unary(b, "minus", node, 1);
}

int inverse(struct builder *b, int node)
{
    return add_unary(b, "inverse", node, 2);
}

int device(struct builder *b, int node)
{
    return add_unary(b, "device", node, 3);
}

int transfer(struct builder *b, int node, int type)
{
    enter(b, "transfer");
    return is_between(b, type, INTEGER, CHARACTER, "type %d is no standard type") && take_expression(b, node) ? add_node(b, TRANSFER, node, type, 0)
                                                                                                           : NONE;
}

int binary(struct builder *b, char sign, int left, int right)
{
    static const char signs[] = "=#<l>g+-*/%&|";
    const char *at = sign ? strchr(signs, sign) : NULL;
    enter(b, "binary");
    if (!at) {
        blame(b, "there is no operator '%c'", sign >= 32 && sign < 127 ? sign : '?');
        return NONE;
    }
    return take_expression(b, left) && take_expression(b, right) ? add_node(b, BINARY, left, right, (int)(at - signs) + 1) : NONE;
}

/* ---- statements */

/* Between which statements may it stand? An opener is followed by an arm, and an arm or a body holds a statement. */
static bool is_in_place(struct builder *b, int kind)
{
    bool is_closing = kind == ARM || kind == END || kind == BLOCK_END;
    int last = b->statement_count - 1, last_kind = last >= 0 && b->statements[last].block == b->body ? b->statements[last].kind : NONE;
    if (b->body == NONE)
        return blame(b, "no body has begun", 0);
    if ((kind == ARM || kind == END) && b->depth == 0)
        return blame(b, "no if, while, when or cycle is open", 0);
    if (kind == BLOCK_END && b->depth > 0)
        return blame(b, "%d of if, while, when and cycle have no put_end", b->depth);
    if (kind != ARM && b->depth > 0 && b->arms[b->depth - 1] == NONE)
        return blame(b, "an arm comes first", 0);
    if (is_closing && (last_kind == ARM || last_kind == NONE))
        return blame(b, last_kind == ARM ? "the arm holds no statement" : "the body holds no statement", 0);
    return true;
}

static int add_statement(struct builder *b, int kind, int a, int second)
{
    if (!is_in_place(b, kind) || !has_room(b, b->statement_count, "a table has at most %d statements"))
        return NONE;
    b->statements[b->statement_count] = (struct statement){b->body, kind, a, second, b->argument_count, 0, 0, b->call};
    return b->statement_count++;
}

/* The arguments of the statement, each a variable or an expression. */
static void add_arguments(struct builder *b, int statement, int count, const int nodes[ENTRIES])
{
    for (int i = 0; statement != NONE && i < count; i++) {
        if (!take_node(b, nodes[i]) || !has_room(b, b->argument_count, "a table has at most %d arguments"))
            return;
        b->arguments[b->argument_count++] = nodes[i];
        b->statements[statement].count++;
    }
}

void begin_body(struct builder *b, int block)
{
    enter(b, "begin_body");
    if (b->body != NONE)
        blame(b, "the body of block %d has not ended", b->body);
    else if (is_block(b, block) && (!b->has_body[block] || blame(b, "block %d has a body already", block))) {
        b->body = block;
        b->has_body[block] = true;
    }
}

void end_body(struct builder *b)
{
    enter(b, "end_body");
    if (add_statement(b, BLOCK_END, b->body, 0) != NONE)
        b->body = NONE;
}

void put_skip(struct builder *b)
{
    enter(b, "put_skip");
    add_statement(b, SKIP, 0, 0);
}

void put_assign(struct builder *b, int variable, int expression)
{
    enter(b, "put_assign");
    if (take_variable(b, variable) && take_expression(b, expression))
        add_statement(b, ASSIGN, variable, expression);
}

void (put_call)(struct builder *b, int procedure, int count, ...)
{
    int nodes[ENTRIES];
    va_list list;
    enter(b, "put_call");
    va_start(list, count);
    if (read_list(b, count, list, nodes) && is_procedure(b, procedure))
        add_arguments(b, add_statement(b, CALL, procedure, 0), count, nodes);
    va_end(list);
}

void (put_process_call)(struct builder *b, int reference, int procedure, int count, ...)
{
    int nodes[ENTRIES];
    va_list list;
    enter(b, "put_process_call");
    va_start(list, count);
    if (read_list(b, count, list, nodes) && take_variable(b, reference) && is_procedure(b, procedure))
        add_arguments(b, add_statement(b, PROCESS_CALL, reference, procedure), count, nodes);
    va_end(list);
}

void put_create(struct builder *b, int reference)
{
    enter(b, "put_create");
    if (take_variable(b, reference))
        add_statement(b, CREATE, reference, 0);
}

void (put_start)(struct builder *b, int reference, int count, ...)
{
    int nodes[ENTRIES];
    va_list list;
    enter(b, "put_start");
    va_start(list, count);
    if (read_list(b, count, list, nodes) && take_variable(b, reference))
        add_arguments(b, add_statement(b, START, reference, 0), count, nodes);
    va_end(list);
}

void put_write(struct builder *b, int address, int expression)
{
    enter(b, "put_write");
    if (take_expression(b, address) && take_expression(b, expression))
        add_statement(b, WRITE, address, expression);
}

static void put_opener(struct builder *b, const char *name, int kind)
{
    enter(b, name);
    int opener = add_statement(b, kind, 0, 0);
    if (opener == NONE)
        return;
    b->openers[b->depth] = opener;
    b->arms[b->depth++] = NONE;
}

void put_if(struct builder *b)
{
    put_opener(b, "put_if", IF);
}

void put_while(struct builder *b)
{
    put_opener(b, "put_while", WHILE);
}

void put_when(struct builder *b)
{
    put_opener(b, "put_when", WHEN);
}

void put_cycle(struct builder *b)
{
    put_opener(b, "put_cycle", CYCLE);
}

void put_arm(struct builder *b, int guard)
{
    enter(b, "put_arm");
    int arm = take_expression(b, guard) ? add_statement(b, ARM, guard, 0) : NONE;
    if (arm == NONE)
        return;
    if (b->arms[b->depth - 1] != NONE)
        b->statements[b->arms[b->depth - 1]].link = arm;
    b->arms[b->depth - 1] = arm;
}

void put_end(struct builder *b)
{
    enter(b, "put_end");
    int end = add_statement(b, END, 0, 0);
    if (end == NONE)
        return;
    b->statements[b->arms[--b->depth]].link = end;
    b->statements[end].link = b->openers[b->depth];
}

/* ---- what can be tested at the end only */

static int parameters_of(const struct builder *b, int block)
{
    int count = 0;
    for (int i = 0; i < b->variable_count; i++)
        count += b->variable_blocks[i] == block && b->modes[i] != LOCAL;
    return count;
}

static bool are_types_finished(struct builder *b)
{
    bool is_named[ENTRIES] = {false};
    for (int i = 0; i < b->type_count; i++) {
        int module = b->types[i][1];
        if (b->types[i][0] != PROCESS)
            continue;
        if (module >= b->block_count || b->block_kinds[module] != MODULE)
            return blame_call(b, b->type_calls[i], "process_type", "block %d is no module", module, 0);
        if (is_named[module])
            return blame_call(b, b->type_calls[i], "process_type", "block %d has a process type already", module, 0);
        is_named[module] = true;
    }
    return true;
}

static bool are_bodies_finished(struct builder *b)
{
    if (b->body != NONE)
        return blame(b, "the body of block %d has not ended", b->body);
    for (int block = 0; block < b->block_count; block++)
        if (!b->has_body[block])
            return blame(b, "block %d has no body", block);
    return b->block_count > 0 || blame(b, "there is no program", 0);
}

static bool are_calls_finished(struct builder *b)
{
    for (int i = 0; i < b->statement_count; i++) {
        const struct statement *s = &b->statements[i];
        if (s->kind != CALL && s->kind != PROCESS_CALL)
            continue;
        int parameters = parameters_of(b, s->kind == CALL ? s->a : s->b);
        if (s->count != parameters)
            return blame_call(b, s->call, s->kind == CALL ? "put_call" : "put_process_call", "%d arguments for %d parameters", s->count, parameters);
    }
    return true;
}

static bool are_nodes_used(struct builder *b)
{
    for (int i = 0; i < b->node_count; i++)
        if (!b->nodes[i].is_used)
            return blame(b, "the node of call %d is not used", b->nodes[i].call);
    return true;
}

/* ---- the table: variables, statements and nodes are numbered anew, in the order that a table asks for */

struct order {
    int variable[ENTRIES], statement[ENTRIES], node[ENTRIES]; /* the number in the table of each entry of the builder */
    int nodes[ENTRIES], node_count;                           /* the builder's nodes in the order of the table */
    int arguments[ENTRIES], argument_count;
};

struct output {
    uint8_t *bytes;
    size_t length;
};

static void put_byte(struct output *o, int byte)
{
    o->bytes[o->length++] = (uint8_t)byte;
}

static void put_word(struct output *o, int word)
{
    put_byte(o, word & 255);
    put_byte(o, word >> 8 & 255);
}

/* A node stands after its operands, the left one first. */
static void number_node(const struct builder *b, struct order *o, int node)
{
    struct node n = b->nodes[node];
    if (n.kind != CONSTANT && n.kind != WHOLE && n.kind != STRING)
        number_node(b, o, n.p);
    if (n.kind == ELEMENT || n.kind == BINARY)
        number_node(b, o, n.q);
    o->node[node] = o->node_count;
    o->nodes[o->node_count++] = node;
}

static void number_nodes_of(const struct builder *b, struct order *o, const struct statement *s)
{
    if (s->kind == ASSIGN || s->kind == PROCESS_CALL || s->kind == CREATE || s->kind == START || s->kind == ARM || s->kind == WRITE)
        number_node(b, o, s->a);
    if (s->kind == ASSIGN || s->kind == WRITE)
        number_node(b, o, s->b);
    for (int i = 0; i < s->count; i++) {
        number_node(b, o, b->arguments[s->first + i]);
        o->arguments[o->argument_count++] = b->arguments[s->first + i];
    }
}

static void number_all(const struct builder *b, struct order *o)
{
    int variables = 0, statements = 0;
    memset(o, 0, sizeof *o);
    for (int block = 0; block < b->block_count; block++) {
        for (int i = 0; i < b->variable_count; i++)
            if (b->variable_blocks[i] == block)
                o->variable[i] = variables++;
        for (int i = 0; i < b->statement_count; i++)
            if (b->statements[i].block == block) {
                o->statement[i] = statements++;
                number_nodes_of(b, o, &b->statements[i]);
            }
    }
}

static void write_types(const struct builder *b, struct output *out)
{
    put_byte(out, b->type_count);
    for (int i = 0; i < b->type_count; i++) {
        for (int k = 0; k < 3; k++)
            put_byte(out, b->types[i][k]);
        put_word(out, b->types[i][3]);
        put_word(out, b->types[i][4]);
    }
    put_byte(out, b->field_count);
    for (int i = 0; i < b->field_count; i++)
        put_byte(out, b->fields[i]);
}

static void write_variables(const struct builder *b, struct output *out)
{
    put_byte(out, b->variable_count);
    for (int block = 0; block < b->block_count; block++)
        for (int i = 0; i < b->variable_count; i++)
            if (b->variable_blocks[i] == block) {
                put_byte(out, b->modes[i]);
                put_byte(out, b->variable_types[i]);
            }
}

static void write_blocks(const struct builder *b, struct output *out)
{
    int first_variable = 0, first_statement = 0;
    put_byte(out, b->block_count);
    for (int block = 0; block < b->block_count; block++) {
        int parameters = 0, variables = 0;
        for (int i = 0; i < b->variable_count; i++)
            if (b->variable_blocks[i] == block) {
                parameters += b->modes[i] != LOCAL;
                variables++;
            }
        put_byte(out, b->block_kinds[block]);
        put_byte(out, b->block_owners[block]);
        put_byte(out, first_variable);
        put_byte(out, parameters);
        put_byte(out, variables);
        put_byte(out, first_statement);
        put_word(out, b->block_spaces[block]);
        first_variable += variables;
        for (int i = 0; i < b->statement_count; i++)
            first_statement += b->statements[i].block == block;
    }
}

/* What a table has in field p of a node. String constants take the characters in the order of the table. */
static int first_operand(const struct order *o, struct node n, int *next_character)
{
    switch (n.kind) {
    case CONSTANT: return n.p;
    case WHOLE: return o->variable[n.p];
    case STRING: *next_character += n.q; return *next_character - n.q;
    default: return o->node[n.p];
    }
}

static void write_nodes(const struct builder *b, const struct order *o, struct output *out)
{
    int next_character = 0;
    put_byte(out, o->argument_count);
    for (int i = 0; i < o->argument_count; i++)
        put_byte(out, o->node[o->arguments[i]]);
    put_byte(out, o->node_count);
    for (int i = 0; i < o->node_count; i++) {
        struct node n = b->nodes[o->nodes[i]];
        bool has_second = n.kind == ELEMENT || n.kind == BINARY;
        put_byte(out, n.kind);
        put_byte(out, first_operand(o, n, &next_character));
        put_byte(out, has_second ? o->node[n.q] : n.q);
        put_word(out, n.v);
    }
}

static void write_statement(const struct order *o, struct statement s, int next_argument, struct output *out)
{
    bool has_node = s.kind == ASSIGN || (s.kind >= PROCESS_CALL && s.kind <= START) || s.kind == ARM || s.kind == WRITE;
    bool has_call = s.kind == CALL || s.kind == PROCESS_CALL || s.kind == START;
    put_byte(out, s.kind);
    put_byte(out, has_node ? o->node[s.a] : s.a);
    put_byte(out, s.kind == ASSIGN || s.kind == WRITE ? o->node[s.b] : s.b);
    put_byte(out, has_call ? next_argument : 0);
    put_byte(out, s.count);
    put_byte(out, s.kind == ARM || s.kind == END ? o->statement[s.link] : 0);
}

static void write_statements(const struct builder *b, const struct order *o, struct output *out)
{
    int next_argument = 0;
    put_byte(out, b->statement_count);
    for (int block = 0; block < b->block_count; block++)
        for (int i = 0; i < b->statement_count; i++)
            if (b->statements[i].block == block) {
                write_statement(o, b->statements[i], next_argument, out);
                next_argument += b->statements[i].count;
            }
}

/* The eighth section, where there is a string constant. */
static void write_characters(const struct builder *b, const struct order *o, struct output *out)
{
    if (b->character_count == 0)
        return;
    put_byte(out, b->character_count);
    for (int i = 0; i < o->node_count; i++) {
        struct node n = b->nodes[o->nodes[i]];
        for (int k = 0; n.kind == STRING && k < n.q; k++)
            put_byte(out, b->characters[n.p + k]);
    }
}

static bool has_bytes(struct builder *b, size_t room)
{
    int length = 7 + 7 * b->type_count + b->field_count + 2 * b->variable_count + 8 * b->block_count + b->argument_count + 5 * b->node_count +
                 6 * b->statement_count + (b->character_count > 0) + b->character_count;
    return (size_t)length <= room || blame(b, "the table has %d bytes, and there is less room", length);
}

size_t finish_table(struct builder *b, uint8_t *bytes, size_t room)
{
    struct order order;
    struct output out = {bytes, 0};
    enter(b, "finish_table");
    if (b->mistake[0] || !are_types_finished(b) || !are_bodies_finished(b) || !are_calls_finished(b) || !are_nodes_used(b) || !has_bytes(b, room))
        return 0;
    number_all(b, &order);
    write_types(b, &out);
    write_variables(b, &out);
    write_blocks(b, &out);
    write_nodes(b, &order, &out);
    write_statements(b, &order, &out);
    write_characters(b, &order, &out);
    return out.length;
}
