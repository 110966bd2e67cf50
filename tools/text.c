#include "text.h"

#include "joyce.h"

enum { NODES_MAX = 255 };

static const char *const standard[] = {"integer", "boolean", "char"};

static int at(const struct text *x, int section, int entry, int field)
{
    return get(x->table, section, entry, field);
}

static void write_name(const struct text *x, enum label_kind kind, const char *prefix, int number)
{
    const char *name = label_of(x->labels, kind, number);
    if (name)
        fputs(name, x->out);
    else
        fprintf(x->out, "%s%d", prefix, number);
}

void write_variable_name(const struct text *x, int variable)
{
    write_name(x, VARIABLE_LABEL, "v", variable);
}

void write_block_name(const struct text *x, int block)
{
    write_name(x, BLOCK_LABEL, "b", block);
}

static bool has_type(const struct text *x, int type)
{
    return has_entry(x->table, TYPES, type - DECLARED);
}

static int kind_of(const struct text *x, int type)
{
    return has_type(x, type) ? at(x, TYPES, type - DECLARED, T_KIND) : 0;
}

/* A module's type has the module's name. */
void write_type_name(const struct text *x, int type)
{
    const char *module = kind_of(x, type) == PROCESS ? label_of(x->labels, BLOCK_LABEL, at(x, TYPES, type - DECLARED, T_P)) : NULL;
    if (type >= 0 && type < DECLARED)
        fputs(standard[type], x->out);
    else if (module && !label_of(x->labels, TYPE_LABEL, type))
        fputs(module, x->out);
    else
        write_name(x, TYPE_LABEL, "t", type);
}

void write_field_name(const struct text *x, int record, int place)
{
    const char *name = kind_of(x, record) == RECORD ? label_of(x->labels, FIELD_LABEL, at(x, TYPES, record - DECLARED, T_P) + place) : NULL;
    if (name)
        fputs(name, x->out);
    else
        fprintf(x->out, "f%d", place);
}

static void write_record(const struct text *x, int type)
{
    int first = at(x, TYPES, type - DECLARED, T_P), fields = at(x, TYPES, type - DECLARED, T_Q);
    fputs("record ", x->out);
    for (int i = 0; i < fields; i++) {
        fputs(i ? "; " : "", x->out);
        write_field_name(x, type, i);
        fputs(": ", x->out);
        if (has_entry(x->table, FIELDS, first + i))
            write_type_name(x, at(x, FIELDS, first + i, F_TYPE));
        else
            fputc('?', x->out);
    }
    fputs(" end", x->out);
}

void write_type(const struct text *x, int type)
{
    int p = at(x, TYPES, type - DECLARED, T_P);
    switch (kind_of(x, type)) {
    case RECORD: write_record(x, type); break;
    case ARRAY:
        fputs("array ", x->out);
        write_constant(x, p, at(x, TYPES, type - DECLARED, T_LOW));
        fputs("..", x->out);
        write_constant(x, p, at(x, TYPES, type - DECLARED, T_HIGH));
        fputs(" of ", x->out);
        write_type_name(x, at(x, TYPES, type - DECLARED, T_Q));
        break;
    case PROCESS:
        fputs("process ", x->out);
        write_block_name(x, p);
        break;
    default: fputc('?', x->out);
    }
}

void write_in_string(FILE *out, int character, bool *is_number)
{
    bool is_digit = character >= '0' && character <= '9', is_graphic = character >= 32 && character < 127;
    *is_number = !is_graphic || character == '\'' || character == '@' || (is_digit && *is_number);
    fprintf(out, *is_number ? "@%d" : "%c", character);
}

void write_constant(const struct text *x, int type, int number)
{
    if (type == BOOLEAN && (number == 0 || number == 1))
        fputs(number ? "true" : "false", x->out);
    else if (type == CHARACTER && number >= 32 && number < 127 && number != '\'' && number != '@')
        fprintf(x->out, "'%c'", number);
    else if (type == CHARACTER)
        fprintf(x->out, "'@%d'", number);
    else
        fprintf(x->out, "%d", number);
}

/* ---- nodes */

/* What the grammar asks for at a place; and whether it is an address, where a constant may be a device word that has a name. */
struct place {
    enum { EXPRESSION, SIMPLE, TERM, FACTOR } level;
    bool is_address;
};

static void write_in(struct text *x, int node, int user, struct place place);

/* Brackets, where what stands in them is of a lower level than its place asks. */
static void open_bracket(struct text *x, int level, struct place place)
{
    if (level < (int)place.level)
        fputc('(', x->out);
}

static void close_bracket(struct text *x, int level, struct place place)
{
    if (level < (int)place.level)
        fputc(')', x->out);
}

static void write_number(struct text *x, int node, struct place place)
{
    int type = at(x, NODES, node, N_P), number = at(x, NODES, node, N_V), level = number < 0 ? SIMPLE : FACTOR;
    const char *name = type == INTEGER && place.is_address ? label_of(x->labels, DEVICE_LABEL, number) : NULL;
    if (name) {
        fputs(name, x->out);
        return;
    }
    open_bracket(x, level, place);
    write_constant(x, type, number);
    close_bracket(x, level, place);
}

/* A string constant. One character is written with the character 0 that it gains, for 'a' would be no string. */
static void write_string(struct text *x, int node)
{
    int first = at(x, NODES, node, N_P), count = at(x, NODES, node, N_Q);
    bool is_number = false;
    fputc('\'', x->out);
    for (int i = first; i < first + count && has_entry(x->table, CHARACTERS, i); i++)
        write_in_string(x->out, at(x, CHARACTERS, i, C_CHARACTER), &is_number);
    fputs(count == 1 ? "@0'" : "'", x->out);
    if (count == 0 || first + count > x->table->count[CHARACTERS])
        fputc('?', x->out);
}

static void write_unary(struct text *x, int node, struct place place)
{
    static const char *const signs[] = {"?", "-", "not ", "val "};
    int sign = at(x, NODES, node, N_Q);
    open_bracket(x, SIMPLE, place);
    fputs(signs[sign <= VAL ? sign : 0], x->out);
    write_in(x, at(x, NODES, node, N_P), node, (struct place){TERM, sign == VAL});
    close_bracket(x, SIMPLE, place);
}

/* A sum that begins with a unary operator is not written as one: its operand would seem to be the sum. */
static int left_level(struct text *x, int left, int node, int level)
{
    return level == SIMPLE && left < node && at(x, NODES, left, N_KIND) != BINARY ? TERM : level == EXPRESSION ? SIMPLE : level;
}

static void write_binary(struct text *x, int node, struct place place)
{
    static const char *const signs[] = {"?", "=", "<>", "<", "<=", ">", ">=", "+", "-", "*", "/", "mod", "and", "or"};
    int sign = at(x, NODES, node, N_V), left = at(x, NODES, node, N_P), right = at(x, NODES, node, N_Q);
    bool is_sum = sign == PLUS || sign == DIFFERENCE || sign == OR, is_address = place.is_address && is_sum && sign != OR;
    int level = is_sum ? SIMPLE : sign >= TIMES && sign <= AND ? TERM : EXPRESSION;
    open_bracket(x, level, place);
    write_in(x, left, node, (struct place){left_level(x, left, node, level), is_address});
    fprintf(x->out, " %s ", signs[sign >= EQUAL && sign <= OR ? sign : 0]);
    write_in(x, right, node, (struct place){level + 1, is_address});
    close_bracket(x, level, place);
}

/* The type of a variable node; 0 where it cannot be found. */
static int variable_type(const struct text *x, int node)
{
    int p = at(x, NODES, node, N_P), type;
    if (at(x, NODES, node, N_KIND) == WHOLE)
        return has_entry(x->table, VARIABLES, p) ? at(x, VARIABLES, p, V_TYPE) : 0;
    if (p >= node || !is_variable_kind(at(x, NODES, node, N_KIND)))
        return 0;
    type = variable_type(x, p);
    if (at(x, NODES, node, N_KIND) == ELEMENT)
        return kind_of(x, type) == ARRAY ? at(x, TYPES, type - DECLARED, T_Q) : 0;
    int field = kind_of(x, type) == RECORD ? at(x, TYPES, type - DECLARED, T_P) + at(x, NODES, node, N_Q) : -1;
    return has_entry(x->table, FIELDS, field) ? at(x, FIELDS, field, F_TYPE) : 0;
}

static void write_selection(struct text *x, int node)
{
    int p = at(x, NODES, node, N_P), q = at(x, NODES, node, N_Q);
    write_in(x, p, node, (struct place){FACTOR, false});
    if (at(x, NODES, node, N_KIND) == FIELD) {
        fputc('.', x->out);
        write_field_name(x, p < node ? variable_type(x, p) : 0, q);
    } else {
        fputc('[', x->out);
        write_in(x, q, node, (struct place){EXPRESSION, false});
        fputc(']', x->out);
    }
}

/* A node of an accepted table stands after its operands and is used once. Of a refused one it may be used again and again: after some nodes it
 * is cut short. */
static void write_in(struct text *x, int node, int user, struct place place)
{
    if (node >= user || x->left-- <= 0) {
        fprintf(x->out, "?n%d", node);
        return;
    }
    switch (at(x, NODES, node, N_KIND)) {
    case CONSTANT: write_number(x, node, place); break;
    case WHOLE: write_variable_name(x, at(x, NODES, node, N_P)); break;
    case FIELD:
    case ELEMENT: write_selection(x, node); break;
    case VALUE: write_in(x, at(x, NODES, node, N_P), node, place); break;
    case UNARY: write_unary(x, node, place); break;
    case BINARY: write_binary(x, node, place); break;
    case STRING: write_string(x, node); break;
    case TRANSFER:
        write_in(x, at(x, NODES, node, N_P), node, (struct place){FACTOR, false});
        fputs(": ", x->out);
        write_type_name(x, at(x, NODES, node, N_Q));
        break;
    default: fprintf(x->out, "?n%d", node);
    }
}

void write_node(struct text *x, int node)
{
    x->left = NODES_MAX;
    write_in(x, node, x->table->count[NODES], (struct place){EXPRESSION, false});
}

/* ---- statements */

static void write_address(struct text *x, int node)
{
    x->left = NODES_MAX;
    write_in(x, node, x->table->count[NODES], (struct place){EXPRESSION, true});
}

static void write_arguments(struct text *x, int statement)
{
    int first = at(x, STATEMENTS, statement, S_C), count = at(x, STATEMENTS, statement, S_D);
    for (int i = 0; i < count; i++) {
        fputs(i ? ", " : "(", x->out);
        if (has_entry(x->table, ARGUMENTS, first + i))
            write_node(x, at(x, ARGUMENTS, first + i, A_NODE));
        else
            fputc('?', x->out);
    }
    fputs(count ? ")" : "", x->out);
}

static void write_arm(struct text *x, int statement)
{
    bool is_first = statement == 0 || is_opener(at(x, STATEMENTS, statement - 1, S_KIND));
    fputs(is_first ? "" : "else ", x->out);
    write_node(x, at(x, STATEMENTS, statement, S_A));
    fputs(" do", x->out);
}

void write_statement(struct text *x, int statement)
{
    int kind = at(x, STATEMENTS, statement, S_KIND), a = at(x, STATEMENTS, statement, S_A), b = at(x, STATEMENTS, statement, S_B);
    switch (kind) {
    case ASSIGN:
        write_node(x, a);
        fputs(" := ", x->out);
        write_node(x, b);
        break;
    case CALL:
        write_block_name(x, a);
        write_arguments(x, statement);
        break;
    case PROCESS_CALL:
        write_node(x, a);
        fputc('.', x->out);
        write_block_name(x, b);
        write_arguments(x, statement);
        break;
    case CREATE:
    case START:
        fputs(kind == CREATE ? "create " : "start ", x->out);
        write_node(x, a);
        if (kind == START)
            write_arguments(x, statement);
        break;
    case ARM: write_arm(x, statement); break;
    case WRITE:
        fputs("write(", x->out);
        write_address(x, a);
        fputs(", ", x->out);
        write_node(x, b);
        fputc(')', x->out);
        break;
    default: fputs(kind_name(STATEMENTS, kind) ? kind_name(STATEMENTS, kind) : "?", x->out);
    }
}
