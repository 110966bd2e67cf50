/* judge.h: what the rules of the explanations share. See explain.h. */
#ifndef JUDGE_H
#define JUDGE_H

#include "explain.h"
#include "table.h"

enum { ENTRIES = 256, NO_TYPE = -1 };
enum { STRING_TYPE = DECLARED + ENTRIES }; /* plus its even length: the type of a string constant */

/* What the rules find on the way, each for those after it. */
struct judge {
    struct table t;
    struct fault *fault;
    int type_of[ENTRIES];            /* of a node */
    int words[DECLARED + ENTRIES];   /* of a type */
    int home[ENTRIES];               /* the block of a variable */
    int block_of[ENTRIES];           /* the block of a node */
    int block_at[ENTRIES];           /* the block of a statement */
};

#define BIT(field) (1 << (field))

static inline int at(const struct judge *j, int section, int entry, int field)
{
    return get(&j->t, section, entry, field);
}

static inline int count(const struct judge *j, int section)
{
    return j->t.count[section];
}

/* Notes the fault. False, so that a rule can end with it. */
bool blame(struct judge *j, int section, int entry, int field, const char *why, ...);

/* A call or a start. */
bool has_arguments(int statement_kind);

/* The fields of an entry that name nodes, as bits. */
int node_fields(const struct judge *j, int section, int entry);

/* The type of a variable node, read off the table. */
int variable_type(const struct judge *j, int node);

/* The rules 3 to 9; each is judged where those before it are kept. */
bool judge_kinds(struct judge *j);
bool judge_numbers(struct judge *j);
bool judge_uses(struct judge *j);
bool judge_nesting(struct judge *j);
bool judge_sizes(struct judge *j);
bool judge_scopes(struct judge *j);
bool judge_types(struct judge *j);

#endif
