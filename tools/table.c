#include "table.h"

struct field {
    const char *name;
    int offset;
    bool is_word;
};

enum { FIELDS_MAX = 7, KINDS_MAX = 14 };

static const struct form {
    const char *name;
    int size, fields;
    struct field field[FIELDS_MAX];
} forms[SECTIONS] = {
    [TYPES] = {"types", 7, 5, {{"kind", 0, 0}, {"p", 1, 0}, {"q", 2, 0}, {"low", 3, 1}, {"high", 5, 1}}},
    [FIELDS] = {"fields", 1, 1, {{"type", 0, 0}}},
    [VARIABLES] = {"variables", 2, 2, {{"mode", 0, 0}, {"type", 1, 0}}},
    [BLOCKS] = {"blocks", 8, 7, {{"kind", 0, 0}, {"owner", 1, 0}, {"first variable", 2, 0}, {"parameters", 3, 0}, {"variables", 4, 0},
                                 {"first statement", 5, 0}, {"space", 6, 1}}},
    [ARGUMENTS] = {"arguments", 1, 1, {{"node", 0, 0}}},
    [NODES] = {"nodes", 5, 4, {{"kind", 0, 0}, {"p", 1, 0}, {"q", 2, 0}, {"v", 3, 1}}},
    [STATEMENTS] = {"statements", 6, 6, {{"kind", 0, 0}, {"a", 1, 0}, {"b", 2, 0}, {"c", 3, 0}, {"d", 4, 0}, {"link", 5, 0}}},
    [CHARACTERS] = {"characters", 1, 1, {{"character", 0, 0}}},
};

static const char *const kinds[SECTIONS][KINDS_MAX] = {
    [TYPES] = {NULL, "record", "array", "process"},
    [VARIABLES] = {"local", "value parameter", "var parameter"},
    [BLOCKS] = {"program", "process module", "procedure"},
    [NODES] = {"constant", "whole", "field", "element", "value", "unary", "binary", "transfer", "string"},
    [STATEMENTS] = {"skip", "assign", "local call", "process call", "create", "start", "if", "while", "when", "cycle", "arm", "end", "write",
                    "block end"},
};

/* an empty cartridge slot: block 0 skips and ends */
static const uint8_t empty_slot[] = {0, 0, 0, 1, 0, 0, 0, 0, 0, 0, 0, 0, 0, 0, 2, 0, 0, 0, 0, 0, 0, 13, 0, 0, 0, 0, 0};

bool read_sections(struct table *t, const uint8_t *bytes, size_t length, int *broken)
{
    size_t at = 0;
    if (length == 0) {
        bytes = empty_slot;
        length = sizeof empty_slot;
    }
    *t = (struct table){.bytes = bytes, .length = length};
    for (int i = 0; i < SECTIONS; i++) {
        *broken = i;
        t->first[i] = at + 1;
        t->has_characters = i == CHARACTERS && at < length;
        if (i == CHARACTERS && !t->has_characters)
            break;
        if (at >= length)
            return false;
        t->count[i] = bytes[at];
        at += 1 + (size_t)t->count[i] * (size_t)forms[i].size;
        if (at > length)
            return false;
    }
    *broken = SECTIONS;
    return at == length;
}

bool has_entry(const struct table *t, int section, int entry)
{
    return entry >= 0 && entry < t->count[section];
}

size_t place_of(const struct table *t, int section, int entry, int field)
{
    return t->first[section] + (size_t)entry * (size_t)forms[section].size + (size_t)forms[section].field[field].offset;
}

int get(const struct table *t, int section, int entry, int field)
{
    const uint8_t *at = t->bytes + place_of(t, section, entry, field);
    int word;
    if (!forms[section].field[field].is_word)
        return *at;
    word = at[0] + 256 * at[1];
    return word < 32768 ? word : word - 65536;
}

int entry_size(int section)
{
    return forms[section].size;
}

int field_count(int section)
{
    return forms[section].fields;
}

const char *section_name(int section)
{
    return forms[section].name;
}

const char *field_name(int section, int field)
{
    return forms[section].field[field].name;
}

const char *kind_name(int section, int kind)
{
    return kind >= 0 && kind < KINDS_MAX ? kinds[section][kind] : NULL;
}

bool is_variable_kind(int node_kind)
{
    return node_kind == WHOLE || node_kind == FIELD || node_kind == ELEMENT;
}

bool is_opener(int statement_kind)
{
    return statement_kind >= IF && statement_kind <= CYCLE;
}
