/* The rules of form: kinds (3), uses of nodes (5), nesting (6). */
#include "judge.h"

/* ---- 3: kinds, modes, operators, unused fields */

enum { ALL = 0xff, KIND = BIT(0) };

/* The fields that a kind uses. */
static const int type_uses[] = {0, KIND | BIT(T_P) | BIT(T_Q), ALL, KIND | BIT(T_P)};
static const int node_uses[] = {
    [CONSTANT] = KIND | BIT(N_P) | BIT(N_V), [WHOLE] = KIND | BIT(N_P), [FIELD] = KIND | BIT(N_P) | BIT(N_Q),
    [ELEMENT] = KIND | BIT(N_P) | BIT(N_Q), [VALUE] = KIND | BIT(N_P), [UNARY] = KIND | BIT(N_P) | BIT(N_Q), [BINARY] = ALL,
    [TRANSFER] = KIND | BIT(N_P) | BIT(N_Q), [STRING] = KIND | BIT(N_P) | BIT(N_Q)};
static const int statement_uses[] = {
    [SKIP] = KIND, [ASSIGN] = KIND | BIT(S_A) | BIT(S_B), [CALL] = KIND | BIT(S_A) | BIT(S_C) | BIT(S_D),
    [PROCESS_CALL] = KIND | BIT(S_A) | BIT(S_B) | BIT(S_C) | BIT(S_D), [CREATE] = KIND | BIT(S_A),
    [START] = KIND | BIT(S_A) | BIT(S_C) | BIT(S_D), [IF] = KIND, [WHILE] = KIND, [WHEN] = KIND, [CYCLE] = KIND,
    [ARM] = KIND | BIT(S_A) | BIT(S_LINK), [END] = KIND | BIT(S_LINK), [WRITE] = KIND | BIT(S_A) | BIT(S_B), [BLOCK_END] = KIND | BIT(S_A)};

static bool is_kind_known(struct judge *j, int section, int entry)
{
    const char *what = section == VARIABLES ? "mode" : "kind";
    return kind_name(section, at(j, section, entry, 0)) || blame(j, section, entry, 0, "there is no such %s", what);
}

static bool are_unused_zero(struct judge *j, int section, int entry, int uses)
{
    for (int field = 0; field < field_count(section); field++)
        if (!(uses & BIT(field)) && at(j, section, entry, field) != 0)
            return blame(j, section, entry, field, "the field is unused in this kind (%s), and unused fields are 0",
                         kind_name(section, at(j, section, entry, 0)));
    return true;
}

static bool is_operator_known(struct judge *j, int node)
{
    int kind = at(j, NODES, node, N_KIND), q = at(j, NODES, node, N_Q), v = at(j, NODES, node, N_V);
    if (kind == UNARY && (q < MINUS || q > VAL))
        return blame(j, NODES, node, N_Q, "a unary operator is 1 (minus), 2 (not) or 3 (val)");
    if (kind == BINARY && (v < EQUAL || v > OR))
        return blame(j, NODES, node, N_V, "a binary operator is 1..13, for = <> < <= > >= + - * / mod and or");
    return true;
}

bool judge_kinds(struct judge *j)
{
    for (int i = 0; i < count(j, TYPES); i++)
        if (!is_kind_known(j, TYPES, i) || !are_unused_zero(j, TYPES, i, type_uses[at(j, TYPES, i, T_KIND)]))
            return false;
    for (int i = 0; i < count(j, VARIABLES); i++)
        if (!is_kind_known(j, VARIABLES, i))
            return false;
    for (int i = 0; i < count(j, BLOCKS); i++)
        if (!is_kind_known(j, BLOCKS, i))
            return false;
    for (int i = 0; i < count(j, NODES); i++)
        if (!is_kind_known(j, NODES, i) || !are_unused_zero(j, NODES, i, node_uses[at(j, NODES, i, N_KIND)]) || !is_operator_known(j, i))
            return false;
    for (int i = 0; i < count(j, STATEMENTS); i++)
        if (!is_kind_known(j, STATEMENTS, i) || !are_unused_zero(j, STATEMENTS, i, statement_uses[at(j, STATEMENTS, i, S_KIND)]))
            return false;
    return true;
}

/* ---- 5: each node is used once */

struct user {
    int section, entry; /* section NOWHERE: none yet */
};

static bool use_nodes_of(struct judge *j, int section, int entry, struct user users[ENTRIES])
{
    for (int field = 0; field < field_count(section); field++) {
        int node = at(j, section, entry, field);
        if (!(node_fields(j, section, entry) & BIT(field)))
            continue;
        if (users[node].section != NOWHERE)
            return blame(j, section, entry, field, "a node is used exactly once, and node %d is used by %s, entry %d, already", node,
                         section_name(users[node].section), users[node].entry);
        users[node] = (struct user){section, entry};
    }
    return true;
}

bool judge_uses(struct judge *j)
{
    static const int sections[] = {NODES, STATEMENTS, ARGUMENTS};
    struct user users[ENTRIES];
    for (int i = 0; i < ENTRIES; i++)
        users[i].section = NOWHERE;
    for (int k = 0; k < 3; k++)
        for (int i = 0; i < count(j, sections[k]); i++)
            if (!use_nodes_of(j, sections[k], i, users))
                return false;
    for (int i = 0; i < count(j, NODES); i++)
        if (users[i].section == NOWHERE)
            return blame(j, NODES, i, NOWHERE, "a node is used exactly once, and no node, statement or argument uses this one");
    return true;
}

/* ---- 6: nesting. Each moves *i past what begins there. */

static bool pass_arms(struct judge *j, int opener, int *i);

static bool is_statement_there(struct judge *j, int i, const char *what)
{
    return i < count(j, STATEMENTS) || blame(j, STATEMENTS, NOWHERE, NOWHERE, "the statements end where %s is needed", what);
}

static bool pass_statement(struct judge *j, int *i)
{
    if (!is_statement_there(j, *i, "a statement of a body"))
        return false;
    int kind = at(j, STATEMENTS, *i, S_KIND), opener = *i;
    if (kind == ARM || kind == END || kind == BLOCK_END)
        return blame(j, STATEMENTS, *i, S_KIND, "an arm or body holds at least one statement, and this is of kind %s", kind_name(STATEMENTS, kind));
    ++*i;
    return !is_opener(kind) || pass_arms(j, opener, i);
}

/* One or more statements. */
static bool pass_body(struct judge *j, int *i)
{
    int kind;
    do {
        if (!pass_statement(j, i))
            return false;
        kind = *i < count(j, STATEMENTS) ? at(j, STATEMENTS, *i, S_KIND) : BLOCK_END;
    } while (kind != ARM && kind != END && kind != BLOCK_END);
    return true;
}

static bool pass_arms(struct judge *j, int opener, int *i)
{
    const char *word = kind_name(STATEMENTS, at(j, STATEMENTS, opener, S_KIND));
    if (!is_statement_there(j, *i, "an arm"))
        return false;
    if (at(j, STATEMENTS, *i, S_KIND) != ARM)
        return blame(j, STATEMENTS, *i, S_KIND, "the %s, statement %d, is followed by an arm", word, opener);
    while (at(j, STATEMENTS, *i, S_KIND) == ARM) {
        int arm = (*i)++;
        if (!pass_body(j, i) || !is_statement_there(j, *i, "an arm or an end"))
            return false;
        if (at(j, STATEMENTS, *i, S_KIND) == BLOCK_END)
            return blame(j, STATEMENTS, *i, S_KIND, "the %s, statement %d, has not ended", word, opener);
        if (at(j, STATEMENTS, arm, S_LINK) != *i)
            return blame(j, STATEMENTS, arm, S_LINK, "an arm's link is the next arm or the end, here statement %d", *i);
    }
    if (at(j, STATEMENTS, *i, S_LINK) != opener)
        return blame(j, STATEMENTS, *i, S_LINK, "an end's link is its opener, here statement %d", opener);
    ++*i;
    return true;
}

static bool pass_block(struct judge *j, int block, int *i)
{
    int first = *i;
    if (at(j, BLOCKS, block, B_STATEMENT) != *i)
        return blame(j, BLOCKS, block, B_STATEMENT, "the blocks before it end before statement %d, and there it begins", *i);
    if (!pass_body(j, i) || !is_statement_there(j, *i, "a block end"))
        return false;
    if (at(j, STATEMENTS, *i, S_KIND) != BLOCK_END)
        return blame(j, STATEMENTS, *i, S_KIND, "no if, while, when or cycle is open here");
    if (at(j, STATEMENTS, *i, S_A) != block)
        return blame(j, STATEMENTS, *i, S_A, "it ends block %d", block);
    ++*i;
    while (first < *i)
        j->block_at[first++] = block;
    return true;
}

bool judge_nesting(struct judge *j)
{
    int i = 0;
    for (int block = 0; block < count(j, BLOCKS); block++)
        if (!pass_block(j, block, &i))
            return false;
    return i == count(j, STATEMENTS) || blame(j, STATEMENTS, i, NOWHERE, "it is left over: the last block ends before it");
}
