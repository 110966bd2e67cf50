#include "view.h"
#include "joyce.h"

#include <string.h>

enum { AREA = 256, RECORDS = 64 * AREA, RECORD_WORDS = 20, CREATED_WORD = 8, FAILURE_WORD = 9, NUMBER_WORD = 10 };
enum { MARKS = 2 * (RECORDS + 64 * RECORD_WORDS) }; /* the byte of the first mark */
enum { CALLER_FRAME, CALL_STATEMENT, CALLER_WORKS, CALLED_BLOCK, LINKS };

unsigned state_word(const uint8_t *state, unsigned i)
{
    return state[2 * i] + 256u * state[2 * i + 1];
}

bool is_marked(const uint8_t *state, unsigned location)
{
    return state[MARKS + location / 8] >> location % 8 & 1;
}

static int at(const struct view *v, int section, unsigned entry, int field)
{
    return get(v->text.table, section, (int)entry, field);
}

unsigned created_of(const uint8_t *state)
{
    return state_word(state, RECORDS + CREATED_WORD);
}

unsigned failure_of(const uint8_t *state)
{
    return state_word(state, RECORDS + FAILURE_WORD);
}

bool begins_with_zeros(const uint8_t *state)
{
    return state_word(state, RECORDS + NUMBER_WORD) == 1;
}

struct record record_of(const uint8_t *state, unsigned process)
{
    unsigned r = RECORDS + (process - 1) * RECORD_WORDS;
    return (struct record){state_word(state, r),     state_word(state, r + 1), state_word(state, r + 2), state_word(state, r + 3),
                           state_word(state, r + 4), state_word(state, r + 5), state_word(state, r + 6), state_word(state, r + 7)};
}

unsigned block_of(const uint8_t *state, unsigned process)
{
    struct record r = record_of(state, process);
    return r.status == STARTED && r.depth > 0 ? state_word(state, (process - 1) * AREA + r.frame + CALLED_BLOCK) : r.module;
}

void view_prepare(struct view *v, const struct text *text, const uint8_t *state)
{
    v->text = *text;
    v->state = state;
    v->words[INTEGER] = v->words[BOOLEAN] = v->words[CHARACTER] = 1;
    for (unsigned i = 0; i < (unsigned)text->table->count[TYPES]; i++) {
        unsigned words = 1, p = (unsigned)at(v, TYPES, i, T_P), q = (unsigned)at(v, TYPES, i, T_Q);
        if (at(v, TYPES, i, T_KIND) == RECORD)
            for (unsigned k = words = 0; k < q; k++)
                words += v->words[at(v, FIELDS, p + k, F_TYPE)];
        else if (at(v, TYPES, i, T_KIND) == ARRAY)
            words = (unsigned)(at(v, TYPES, i, T_HIGH) - at(v, TYPES, i, T_LOW) + 1) * v->words[q];
        v->words[DECLARED + i] = words;
    }
}

/* ---- values */

static void print_value(struct view *v, unsigned location, unsigned type);

/* How many of the words from a location on have been given a value. */
static unsigned marked_words(const struct view *v, unsigned location, unsigned words)
{
    unsigned marked = 0;
    for (unsigned i = 0; i < words; i++)
        marked += is_marked(v->state, location + i);
    return marked;
}

static void print_record(struct view *v, unsigned location, unsigned type)
{
    unsigned first = (unsigned)at(v, TYPES, type - DECLARED, T_P), fields = (unsigned)at(v, TYPES, type - DECLARED, T_Q);
    for (unsigned i = 0; i < fields; i++) {
        unsigned field = (unsigned)at(v, FIELDS, first + i, F_TYPE);
        fputs(i ? ", " : "(", v->text.out);
        write_field_name(&v->text, (int)type, (int)i);
        fputs(": ", v->text.out);
        print_value(v, location, field);
        location += v->words[field];
    }
    fputc(')', v->text.out);
}

/* A string, in the report's symbols. */
static void print_characters(struct view *v, unsigned location, unsigned count)
{
    bool is_number = false;
    fputc('\'', v->text.out);
    for (unsigned i = 0; i < count; i++)
        write_in_string(v->text.out, (int)state_word(v->state, location + i), &is_number);
    fputc('\'', v->text.out);
}

static void print_array(struct view *v, unsigned location, unsigned type)
{
    int low = at(v, TYPES, type - DECLARED, T_LOW), high = at(v, TYPES, type - DECLARED, T_HIGH);
    unsigned element = (unsigned)at(v, TYPES, type - DECLARED, T_Q);
    if (element == CHARACTER && marked_words(v, location, v->words[type]) == v->words[type]) {
        print_characters(v, location, (unsigned)(high - low + 1));
        return;
    }
    for (int i = low; i <= high; i++) {
        fputs(i > low ? ", " : "[", v->text.out);
        write_constant(&v->text, at(v, TYPES, type - DECLARED, T_P), i);
        fputs(": ", v->text.out);
        print_value(v, location + (unsigned)(i - low) * v->words[element], element);
    }
    fputc(']', v->text.out);
}

static void print_value(struct view *v, unsigned location, unsigned type)
{
    unsigned w = state_word(v->state, location);
    if (marked_words(v, location, v->words[type]) == 0)
        fputs("unset", v->text.out);
    else if (type < DECLARED)
        write_constant(&v->text, (int)type, joyce_integer(w));
    else if (at(v, TYPES, type - DECLARED, T_KIND) == RECORD)
        print_record(v, location, type);
    else if (at(v, TYPES, type - DECLARED, T_KIND) == ARRAY)
        print_array(v, location, type);
    else if (w == 0)
        fputs("empty", v->text.out);
    else
        fprintf(v->text.out, "process %u", w);
}

/* ---- variables */

unsigned variable_words(const struct view *v, unsigned variable)
{
    return at(v, VARIABLES, variable, V_MODE) == VAR_PARAMETER ? 1 : v->words[at(v, VARIABLES, variable, V_TYPE)];
}

/* The variables of a block, the first of which stands at a location. */
static void print_variables(struct view *v, unsigned block, unsigned location)
{
    unsigned first = (unsigned)at(v, BLOCKS, block, B_FIRST), count = (unsigned)at(v, BLOCKS, block, B_VARIABLES);
    for (unsigned variable = first; variable < first + count; variable++) {
        bool is_bound = at(v, VARIABLES, variable, V_MODE) == VAR_PARAMETER;
        unsigned place = is_bound ? state_word(v->state, location) : location;
        fputs("    ", v->text.out);
        write_variable_name(&v->text, (int)variable);
        if (label_of(v->text.labels, VARIABLE_LABEL, (int)variable))
            fprintf(v->text.out, " (v%u)", variable);
        fputs(" = ", v->text.out);
        print_value(v, place, (unsigned)at(v, VARIABLES, variable, V_TYPE));
        if (is_bound)
            fprintf(v->text.out, ", word %u of process %u", place % AREA, place / AREA + 1);
        fputc('\n', v->text.out);
        location += variable_words(v, variable);
    }
}

/* ---- processes */

static void print_standing(struct view *v, unsigned block, unsigned statement)
{
    fputs("  ", v->text.out);
    write_block_name(&v->text, (int)block);
    fprintf(v->text.out, " at statement %u: ", statement);
    write_statement(&v->text, (int)statement);
}

/* The calls that have not ended, the innermost first; then the process's own block. */
static void print_calls(struct view *v, unsigned process, struct record r)
{
    unsigned area = (process - 1) * AREA;
    for (; r.depth > 0; r.depth--) {
        unsigned frame = area + r.frame;
        print_standing(v, state_word(v->state, frame + CALLED_BLOCK), r.statement);
        if (r.works != process)
            fprintf(v->text.out, ", on the variables of process %u", r.works);
        fputc('\n', v->text.out);
        print_variables(v, state_word(v->state, frame + CALLED_BLOCK), frame + LINKS);
        r.statement = state_word(v->state, frame + CALL_STATEMENT);
        r.works = state_word(v->state, frame + CALLER_WORKS);
        r.frame = state_word(v->state, frame + CALLER_FRAME);
    }
    print_standing(v, r.module, r.statement);
    fputc('\n', v->text.out);
}

void print_process(struct view *v, unsigned process)
{
    static const char *const status[] = {"not created", "created, not started", "started", "ended"};
    if (process < 1 || process > created_of(v->state)) {
        fprintf(v->text.out, "process %u: not created\n", process);
        return;
    }
    struct record r = record_of(v->state, process);
    fprintf(v->text.out, "process %u, ", process);
    write_block_name(&v->text, (int)r.module);
    fprintf(v->text.out, ": %s", status[r.status]);
    if (r.depth > 0 && r.status == STARTED)
        fprintf(v->text.out, ", in %u call%s", r.depth, r.depth > 1 ? "s" : "");
    if (r.holder == 0)
        fputs(", its variables are held by none", v->text.out);
    else if (r.holder != process)
        fprintf(v->text.out, ", its variables are held by process %u", r.holder);
    fputc('\n', v->text.out);
    if (r.status == STARTED)
        print_calls(v, process, r);
    print_variables(v, r.module, (process - 1) * AREA);
}
