#include "explain.h"
#include "judge.h"

#include <stdarg.h>
#include <string.h>

/* All fields of an entry. */
static void copy_entry(const struct judge *j, int section, int entry, char *into, size_t room)
{
    size_t length = 0;
    for (int field = 0; field < field_count(section) && length < room; field++)
        length += (size_t)snprintf(into + length, room - length, "%s%s %d", field ? ", " : "", field_name(section, field),
                                   at(j, section, entry, field));
}

/* What stands at the place of a fault. */
static void note_place(const struct judge *j, struct fault *f)
{
    if (f->entry == NOWHERE) {
        f->byte = j->t.first[f->section] - 1;
        snprintf(f->there, sizeof f->there, "%d", count(j, f->section));
        return;
    }
    f->byte = place_of(&j->t, f->section, f->entry, f->field == NOWHERE ? 0 : f->field);
    if (f->field == NOWHERE)
        copy_entry(j, f->section, f->entry, f->there, sizeof f->there);
    else
        snprintf(f->there, sizeof f->there, "%d", at(j, f->section, f->entry, f->field));
}

bool blame(struct judge *j, int section, int entry, int field, const char *why, ...)
{
    struct fault *f = j->fault;
    va_list args;
    f->section = section;
    f->entry = entry;
    f->field = field;
    note_place(j, f);
    va_start(args, why);
    vsnprintf(f->why, sizeof f->why, why, args);
    va_end(args);
    return false;
}

/* ---- 2: sections */

static bool judge_sections(struct judge *j, const uint8_t *table, size_t length)
{
    struct fault *f = j->fault;
    int broken;
    if (read_sections(&j->t, table, length, &broken))
        return true;
    f->section = broken;
    f->entry = f->field = NOWHERE;
    f->byte = broken == SECTIONS ? j->t.first[CHARACTERS] + (size_t)count(j, CHARACTERS) : j->t.first[broken] - 1;
    if (f->byte < length)
        snprintf(f->there, sizeof f->there, "%d", table[f->byte]);
    else
        strcpy(f->there, "nothing");
    if (broken == SECTIONS)
        snprintf(f->why, sizeof f->why, "after the last section %zu bytes are left over", length - f->byte);
    else if (f->byte >= length)
        snprintf(f->why, sizeof f->why, "the table ends before this section");
    else if (broken == CHARACTERS)
        snprintf(f->why, sizeof f->why,
                 "a table ends after the statements, or an eighth section follows: this one has a count of %d, and %zu bytes are left",
                 count(j, broken), length - f->byte - 1);
    else
        snprintf(f->why, sizeof f->why, "the section has %d entries of %d bytes, %d bytes, and %zu are left", count(j, broken), entry_size(broken),
                 count(j, broken) * entry_size(broken), length - f->byte - 1);
    return false;
}

/* ---- what several rules ask */

bool has_arguments(int kind)
{
    return kind == CALL || kind == PROCESS_CALL || kind == START;
}

int node_fields(const struct judge *j, int section, int entry)
{
    static const int of_nodes[] = {0, 0, BIT(N_P), BIT(N_P) | BIT(N_Q), BIT(N_P), BIT(N_P), BIT(N_P) | BIT(N_Q), BIT(N_P), 0};
    static const int of_statements[] = {[ASSIGN] = BIT(S_A) | BIT(S_B), [PROCESS_CALL] = BIT(S_A), [CREATE] = BIT(S_A), [START] = BIT(S_A),
                                        [ARM] = BIT(S_A), [WRITE] = BIT(S_A) | BIT(S_B), [BLOCK_END] = 0};
    if (section == ARGUMENTS)
        return BIT(A_NODE);
    return section == NODES ? of_nodes[at(j, NODES, entry, N_KIND)] : of_statements[at(j, STATEMENTS, entry, S_KIND)];
}

int variable_type(const struct judge *j, int node)
{
    int kind = at(j, NODES, node, N_KIND), p = at(j, NODES, node, N_P), type;
    if (kind == WHOLE)
        return at(j, VARIABLES, p, V_TYPE);
    type = j->type_of[p];
    if (type < DECLARED || at(j, TYPES, type - DECLARED, T_KIND) != (kind == FIELD ? RECORD : ARRAY))
        return NO_TYPE;
    if (kind == FIELD)
        return at(j, FIELDS, at(j, TYPES, type - DECLARED, T_P) + at(j, NODES, node, N_Q), F_TYPE);
    return at(j, TYPES, type - DECLARED, T_Q);
}

/* ---- all */

void explain(const uint8_t *table, size_t length, struct fault *fault)
{
    static bool (*const rules[])(struct judge *j) = {judge_kinds, judge_numbers, judge_uses, judge_nesting, judge_sizes, judge_scopes, judge_types};
    struct judge judge = {.fault = fault};
    memset(fault, 0, sizeof *fault);
    fault->verdict = 2;
    if (!judge_sections(&judge, table, length))
        return;
    for (int i = 0; i < 7; i++) {
        fault->verdict++;
        if (!rules[i](&judge))
            return;
    }
    fault->verdict = 0;
}

void print_fault(FILE *out, const struct fault *f)
{
    if (f->section == SECTIONS)
        fprintf(out, "  after the sections");
    else
        fprintf(out, "  section %s", section_name(f->section));
    if (f->section != SECTIONS && f->entry == NOWHERE)
        fprintf(out, ", its count");
    if (f->entry != NOWHERE)
        fprintf(out, f->section == TYPES ? ", entry %d, type %d" : ", entry %d", f->entry, DECLARED + f->entry);
    if (f->field != NOWHERE)
        fprintf(out, ", field %s", field_name(f->section, f->field));
    fprintf(out, " (byte %zu): %s stands there\n  %s\n", f->byte, f->there, f->why);
}
