#include "reader.h"
#include "joyce.h"

enum { TYPES, FIELDS, VARIABLES, BLOCKS };
enum { RECORD = 1, ARRAY, PROCESS };
enum { VAR_PARAMETER = 2 };
enum { RECORDS = 16384, CREATED = RECORDS + 8, MARKS = RECORDS + 64 * 20 };

static unsigned word(const uint8_t *bytes, size_t i)
{
    return bytes[2 * i] + 256u * bytes[2 * i + 1];
}

static int integer_at(const uint8_t *bytes)
{
    int word = bytes[0] + 256 * bytes[1];
    return word < 32768 ? word : word - 65536;
}

static const uint8_t *type_row(const struct program *p, int type)
{
    return p->sections[TYPES] + 7 * (type - 3);
}

static const uint8_t *block_row(const struct program *p, int block)
{
    return p->sections[BLOCKS] + 8 * block;
}

static int type_words(const struct program *p, int type)
{
    const uint8_t *row = type_row(p, type);
    int sum = 0;
    if (row[0] == PROCESS)
        return 1;
    if (row[0] == ARRAY)
        return (integer_at(row + 5) - integer_at(row + 3) + 1) * p->words[row[2]];
    for (int i = 0; i < row[2]; i++)
        sum += p->words[p->sections[FIELDS][row[1] + i]];
    return sum;
}

/* Zero bytes are the listing table. */
static const uint8_t listing[] = {0, 0, 0, 1, 0, 0, 0, 0, 0, 0, 0, 0, 0, 0, 2, 0, 0, 0, 0, 0, 0, 13, 0, 0, 0, 0, 0};

void read_program(struct program *p, const uint8_t *table, size_t length)
{
    static const int sizes[7] = {7, 1, 2, 8, 1, 5, 6};
    if (length == 0)
        table = listing;
    for (int i = 0; i < 7; i++) {
        p->counts[i] = *table;
        p->sections[i] = table + 1;
        table += 1 + *table * sizes[i];
    }
    for (int type = 0; type < 3 + p->counts[TYPES]; type++)
        p->words[type] = type < 3 ? 1 : type_words(p, type);
}

int block_kind(const struct program *p, int block)
{
    return block_row(p, block)[0];
}

int first_variable(const struct program *p, int block)
{
    return block_row(p, block)[2];
}

int variable_count(const struct program *p, int block)
{
    return block_row(p, block)[4];
}

int variable_type(const struct program *p, int variable)
{
    return p->sections[VARIABLES][2 * variable + 1];
}

static int variable_mode(const struct program *p, int variable)
{
    return p->sections[VARIABLES][2 * variable];
}

static size_t record_of(unsigned process)
{
    return RECORDS + (process - 1) * (size_t)20;
}

static bool is_reference(const uint8_t *state, unsigned reference, unsigned module, unsigned *named)
{
    if (reference == 0)
        return true;
    ++*named;
    return reference >= 2 && reference <= word(state, CREATED) && word(state, record_of(reference) + 1) == module;
}

/* The references in the value of a type at word `at` of the state. */
static bool value_holds(const struct program *p, const uint8_t *state, int type, size_t at, unsigned *named)
{
    if (type < 3)
        return true;
    const uint8_t *row = type_row(p, type);
    if (row[0] == PROCESS)
        return is_reference(state, word(state, at), row[1], named);
    int parts = row[0] == RECORD ? row[2] : integer_at(row + 5) - integer_at(row + 3) + 1;
    for (int i = 0; i < parts; i++) {
        int part = row[0] == RECORD ? p->sections[FIELDS][row[1] + i] : row[2];
        if (!value_holds(p, state, part, at, named))
            return false;
        at += (size_t)p->words[part];
    }
    return true;
}

/* The variables of a block that stand one after the other from word `at` on; a var parameter has one word. */
static bool variables_hold(const struct program *p, const uint8_t *state, int block, size_t at, unsigned *named)
{
    for (int i = 0; i < variable_count(p, block); i++) {
        int variable = first_variable(p, block) + i, type = variable_type(p, variable);
        bool is_bound = block_kind(p, block) == 2 && variable_mode(p, variable) == VAR_PARAMETER;
        if (!is_bound && !value_holds(p, state, type, at, named))
            return false;
        at += is_bound ? 1 : (size_t)p->words[type];
    }
    return true;
}

bool references_hold(const struct program *p, const uint8_t *state, unsigned *named)
{
    unsigned created = word(state, CREATED);
    if (created < 1 || created > 64)
        return false;
    for (unsigned process = 1; process <= created; process++) {
        size_t area = (process - 1) * (size_t)256, record = record_of(process);
        unsigned module = word(state, record + 1), frame = word(state, record + 3), depth = word(state, record + 7);
        if (module >= (unsigned)p->counts[BLOCKS] || !variables_hold(p, state, (int)module, area, named))
            return false;
        if (word(state, record) != 2) /* only a started process is in calls */
            continue;
        for (; depth > 0; depth--) {
            if (frame > 252 || word(state, area + frame + 3) >= (unsigned)p->counts[BLOCKS])
                return false;
            if (!variables_hold(p, state, (int)word(state, area + frame + 3), area + frame + 4, named))
                return false;
            frame = word(state, area + frame);
        }
    }
    return true;
}

bool is_marked(const uint8_t *state, size_t location)
{
    return word(state, MARKS + location / 16) >> location % 16 & 1u;
}

uint32_t look_by_layout(const struct program *p, const uint8_t *state, uint32_t process, uint32_t variable, uint32_t place)
{
    if (process < 1 || process > word(state, CREATED) || word(state, record_of(process)) < 2)
        return JOYCE_ABSENT;
    int module = (int)word(state, record_of(process) + 1), first = first_variable(p, module);
    if (variable < (uint32_t)first || variable >= (uint32_t)(first + variable_count(p, module)))
        return JOYCE_ABSENT;
    if (place >= (uint32_t)p->words[variable_type(p, (int)variable)])
        return JOYCE_ABSENT;
    size_t at = (process - 1) * (size_t)256 + place;
    for (int i = first; i < (int)variable; i++)
        at += (size_t)p->words[variable_type(p, i)];
    return is_marked(state, at) ? JOYCE_WORD + word(state, at) : JOYCE_UNSET_WORD;
}
