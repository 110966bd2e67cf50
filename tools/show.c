#include "show.h"

static int at(const struct text *x, int section, int entry, int field)
{
    return get(x->table, section, entry, field);
}

/* ---- a program */

/* The number of an entry that has a name, behind it. */
static void show_number(const struct text *x, enum label_kind kind, const char *prefix, int number)
{
    if (label_of(x->labels, kind, number))
        fprintf(x->out, "  (%s%d)", prefix, number);
}

static void show_variable(const struct text *x, int variable)
{
    static const char *const modes[] = {"var", "value parameter", "var parameter"};
    fprintf(x->out, "  %s ", modes[at(x, VARIABLES, variable, V_MODE)]);
    write_variable_name(x, variable);
    fputs(": ", x->out);
    write_type_name(x, at(x, VARIABLES, variable, V_TYPE));
    show_number(x, VARIABLE_LABEL, "v", variable);
    fputc('\n', x->out);
}

static void show_heading(const struct text *x, int block)
{
    int kind = at(x, BLOCKS, block, B_KIND);
    fputc('\n', x->out);
    write_block_name(x, block);
    fprintf(x->out, ": %s", kind_name(BLOCKS, kind));
    if (kind == PROCEDURE) {
        fputs(" of ", x->out);
        write_block_name(x, at(x, BLOCKS, block, B_OWNER));
    } else if (at(x, BLOCKS, block, B_SPACE) > 0)
        fprintf(x->out, ", space %d", at(x, BLOCKS, block, B_SPACE));
    show_number(x, BLOCK_LABEL, "b", block);
    fputc('\n', x->out);
}

/* An opener's arms and end stand below it, and the statements of an arm further in. */
static void show_block(struct text *x, int block)
{
    int depth = 0, statement = at(x, BLOCKS, block, B_STATEMENT), kind;
    show_heading(x, block);
    for (int i = 0; i < at(x, BLOCKS, block, B_VARIABLES); i++)
        show_variable(x, at(x, BLOCKS, block, B_FIRST) + i);
    do {
        kind = at(x, STATEMENTS, statement, S_KIND);
        int inset = kind == ARM || kind == END ? depth - 1 : depth;
        fprintf(x->out, "  %3d  %*s", statement, 4 * inset + (kind == ARM ? 2 : 0), "");
        write_statement(x, statement++);
        fputc('\n', x->out);
        depth += is_opener(kind) - (kind == END);
    } while (kind != BLOCK_END);
}

void show_program(struct text *x)
{
    for (int type = DECLARED; type < DECLARED + x->table->count[TYPES]; type++) {
        fputs("type ", x->out);
        write_type_name(x, type);
        fputs(" = ", x->out);
        write_type(x, type);
        show_number(x, TYPE_LABEL, "t", type);
        fputc('\n', x->out);
    }
    for (int block = 0; block < x->table->count[BLOCKS]; block++)
        show_block(x, block);
}

/* ---- entries */

static void show_fields(const struct text *x, int section, int entry)
{
    const char *kind = kind_name(section, at(x, section, entry, 0));
    for (int field = 0; field < field_count(section); field++) {
        fprintf(x->out, "%s%s %d", field ? ", " : "  ", field_name(section, field), at(x, section, entry, field));
        if (field == 0 && field_count(section) > 1)
            fprintf(x->out, " %s", kind ? kind : "?");
    }
}

/* What the entry says, where that is more than its numbers. */
static void show_meaning(struct text *x, int section, int entry)
{
    if (section == FIELDS || section == VARIABLES || section == BLOCKS)
        return;
    switch (section) {
    case TYPES: write_type(x, DECLARED + entry); break;
    case ARGUMENTS: write_node(x, at(x, ARGUMENTS, entry, A_NODE)); break;
    case NODES: write_node(x, entry); break;
    case CHARACTERS: write_constant(x, CHARACTER, at(x, CHARACTERS, entry, C_CHARACTER)); break;
    default: write_statement(x, entry);
    }
}

static void show_mark(const struct text *x, const struct fault *f, int section, int entry)
{
    if (!f || f->verdict == 0 || f->section != section || f->entry != entry)
        return;
    fputs("  <-- ", x->out);
    if (f->field != NOWHERE)
        fprintf(x->out, "%s: ", field_name(section, f->field));
    fputs(f->why, x->out);
}

void show_entries(struct text *x, const struct fault *fault)
{
    static const char prefixes[SECTIONS] = {'t', 'f', 'v', 'b', 'a', 'n', 's', 'c'};
    for (int section = 0; section < (x->table->has_characters ? SECTIONS : CHARACTERS); section++) {
        fprintf(x->out, "%s: %d", section_name(section), x->table->count[section]);
        show_mark(x, fault, section, NOWHERE);
        fputc('\n', x->out);
        for (int entry = 0; entry < x->table->count[section]; entry++) {
            fprintf(x->out, "  %c%-3d", prefixes[section], entry + (section == TYPES ? DECLARED : 0));
            show_fields(x, section, entry);
            fputs("    ", x->out);
            show_meaning(x, section, entry);
            show_mark(x, fault, section, entry);
            fputc('\n', x->out);
        }
    }
}

/* ---- the place of a fault */

/* Does the entry of a section name the node? */
static bool is_user(const struct text *x, int section, int entry, int node)
{
    int kind = at(x, section, entry, 0), first = at(x, section, entry, 1), second = at(x, section, entry, 2);
    if (section == NODES)
        return (kind >= FIELD && kind <= TRANSFER && first == node) || ((kind == ELEMENT || kind == BINARY) && second == node);
    return ((kind == ASSIGN || (kind >= PROCESS_CALL && kind <= START) || kind == ARM || kind == WRITE) && first == node) ||
           ((kind == ASSIGN || kind == WRITE) && second == node);
}

/* The call or start that takes an argument; -1 where there is none. */
static int statement_of_argument(const struct text *x, int argument)
{
    for (int i = 0; i < x->table->count[STATEMENTS]; i++) {
        int kind = at(x, STATEMENTS, i, S_KIND), first = at(x, STATEMENTS, i, S_C);
        if ((kind == CALL || kind == PROCESS_CALL || kind == START) && argument >= first && argument < first + at(x, STATEMENTS, i, S_D))
            return i;
    }
    return -1;
}

/* The statement that uses a node, directly or through others that stand after it. */
static int statement_of_node(const struct text *x, int node)
{
    for (int user = node + 1; user < x->table->count[NODES]; user++)
        if (is_user(x, NODES, user, node))
            node = user;
    for (int i = 0; i < x->table->count[STATEMENTS]; i++)
        if (is_user(x, STATEMENTS, i, node))
            return i;
    for (int i = 0; i < x->table->count[ARGUMENTS]; i++)
        if (at(x, ARGUMENTS, i, A_NODE) == node)
            return statement_of_argument(x, i);
    return -1;
}

/* The string constant that a character is of; -1 where there is none. */
static int node_of_character(const struct text *x, int character)
{
    for (int i = 0; i < x->table->count[NODES]; i++) {
        int first = at(x, NODES, i, N_P);
        if (at(x, NODES, i, N_KIND) == STRING && character >= first && character < first + at(x, NODES, i, N_Q))
            return i;
    }
    return -1;
}

void show_place(struct text *x, const struct fault *f)
{
    int section = f->section, entry = f->entry, statement = section == STATEMENTS ? entry : -1;
    if (f->verdict <= 2 || entry == NOWHERE)
        return;
    if (section == CHARACTERS) {
        section = NODES;
        entry = node_of_character(x, entry);
    }
    if (entry >= 0 && (section == TYPES || section == ARGUMENTS || section == NODES)) {
        fputs("  in words: ", x->out);
        show_meaning(x, section, entry);
        fputc('\n', x->out);
        statement = section == NODES ? statement_of_node(x, entry) : section == ARGUMENTS ? statement_of_argument(x, entry) : -1;
    }
    if (statement < 0)
        return;
    fprintf(x->out, "  statement %d: ", statement);
    write_statement(x, statement);
    fputc('\n', x->out);
}
