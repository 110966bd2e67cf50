/* The rule of numbers (4). */
#include "judge.h"

enum { SPACE_MAX = 510 };

/* ---- types, fields, variables */

/* A run of numbers begins at the next free one and ends inside its section. */
static bool takes_next(struct judge *j, int section, int entry, int first_field, int count_field, int taken, int *next)
{
    int first = at(j, section, entry, first_field), last = first + at(j, section, entry, count_field);
    if (first != *next)
        return blame(j, section, entry, first_field, "the next free number of the %s is %d", section_name(taken), *next);
    if (last > count(j, taken))
        return blame(j, section, entry, count_field, "from %d on that is more than the %d %s there are", first, count(j, taken), section_name(taken));
    *next = last;
    return true;
}

static bool are_all_taken(struct judge *j, int section, int next, const char *by)
{
    return next == count(j, section) || blame(j, section, next, NOWHERE, "it is left over: %s take %d of the %d", by, next, count(j, section));
}

static bool is_record_numbered(struct judge *j, int i, int *next)
{
    int first = *next;
    if (at(j, TYPES, i, T_Q) < 1 && at(j, TYPES, i, T_P) == *next)
        return blame(j, TYPES, i, T_Q, "a record has at least 1 field");
    if (!takes_next(j, TYPES, i, T_P, T_Q, FIELDS, next))
        return false;
    for (; first < *next; first++)
        if (at(j, FIELDS, first, F_TYPE) >= DECLARED + i)
            return blame(j, FIELDS, first, F_TYPE, "a field's type has a lower number than its record, type %d", DECLARED + i);
    return true;
}

static bool is_process_numbered(struct judge *j, int i)
{
    int module = at(j, TYPES, i, T_P);
    if (!has_entry(&j->t, BLOCKS, module))
        return blame(j, TYPES, i, T_P, "there is no such block: there are %d", count(j, BLOCKS));
    if (at(j, BLOCKS, module, B_KIND) != MODULE)
        return blame(j, TYPES, i, T_P, "a process type names a process module; block %d is a %s", module,
                     kind_name(BLOCKS, at(j, BLOCKS, module, B_KIND)));
    for (int k = 0; k < i; k++)
        if (at(j, TYPES, k, T_KIND) == PROCESS && at(j, TYPES, k, T_P) == module)
            return blame(j, TYPES, i, T_P, "block %d has a process type already, type %d", module, DECLARED + k);
    return true;
}

static bool are_types_numbered(struct judge *j)
{
    int next = 0;
    for (int i = 0; i < count(j, TYPES); i++)
        switch (at(j, TYPES, i, T_KIND)) {
        case RECORD:
            if (!is_record_numbered(j, i, &next))
                return false;
            break;
        case ARRAY:
            if (at(j, TYPES, i, T_P) > CHARACTER)
                return blame(j, TYPES, i, T_P, "an index type is 0 (integer), 1 (boolean) or 2 (char)");
            if (at(j, TYPES, i, T_Q) >= DECLARED + i)
                return blame(j, TYPES, i, T_Q, "an element type has a lower number than its array, type %d", DECLARED + i);
            break;
        default:
            if (!is_process_numbered(j, i))
                return false;
        }
    return are_all_taken(j, FIELDS, next, "records");
}

static bool are_variables_numbered(struct judge *j)
{
    for (int i = 0; i < count(j, VARIABLES); i++)
        if (at(j, VARIABLES, i, V_TYPE) >= DECLARED + count(j, TYPES))
            return blame(j, VARIABLES, i, V_TYPE, "there is no such type: the last is %d", DECLARED + count(j, TYPES) - 1);
    return true;
}

static bool are_modes_right(struct judge *j, int block, int first)
{
    int parameters = at(j, BLOCKS, block, B_PARAMETERS);
    for (int i = 0; i < at(j, BLOCKS, block, B_VARIABLES); i++) {
        bool is_local = at(j, VARIABLES, first + i, V_MODE) == LOCAL;
        if (is_local && i < parameters)
            return blame(j, VARIABLES, first + i, V_MODE, "it is one of the %d parameters of block %d, and they have mode 1 or 2", parameters, block);
        if (!is_local && i >= parameters)
            return blame(j, VARIABLES, first + i, V_MODE, "it stands after the %d parameters of block %d, and has mode 0", parameters, block);
        j->home[first + i] = block;
    }
    return true;
}

static bool is_owner_right(struct judge *j, int block)
{
    int owner = at(j, BLOCKS, block, B_OWNER);
    if (at(j, BLOCKS, block, B_KIND) != PROCEDURE)
        return owner == block || blame(j, BLOCKS, block, B_OWNER, "a program or process module owns itself");
    if (!has_entry(&j->t, BLOCKS, owner))
        return blame(j, BLOCKS, block, B_OWNER, "there is no such block: there are %d", count(j, BLOCKS));
    return at(j, BLOCKS, owner, B_KIND) != PROCEDURE || blame(j, BLOCKS, block, B_OWNER, "a procedure's owner is block 0 or a process module");
}

static bool is_space_right(struct judge *j, int block)
{
    int space = at(j, BLOCKS, block, B_SPACE) & 0xffff;
    if (at(j, BLOCKS, block, B_KIND) == PROCEDURE)
        return space == 0 || blame(j, BLOCKS, block, B_SPACE, "the space of a procedure is 0");
    return (space <= SPACE_MAX && space % 2 == 0) || blame(j, BLOCKS, block, B_SPACE, "a space is even, 0..%d", SPACE_MAX);
}

static bool is_block_numbered(struct judge *j, int block, int *next)
{
    int first = *next;
    if ((at(j, BLOCKS, block, B_KIND) == PROGRAM) != (block == 0))
        return blame(j, BLOCKS, block, B_KIND, "block 0 is the program, and no other is");
    if (block == 0 && at(j, BLOCKS, block, B_PARAMETERS) != 0)
        return blame(j, BLOCKS, block, B_PARAMETERS, "the program has no parameters");
    if (!takes_next(j, BLOCKS, block, B_FIRST, B_VARIABLES, VARIABLES, next))
        return false;
    if (at(j, BLOCKS, block, B_PARAMETERS) > at(j, BLOCKS, block, B_VARIABLES))
        return blame(j, BLOCKS, block, B_PARAMETERS, "the block has %d variables, its parameters among them", at(j, BLOCKS, block, B_VARIABLES));
    if (!are_modes_right(j, block, first) || !is_owner_right(j, block) || !is_space_right(j, block))
        return false;
    return has_entry(&j->t, STATEMENTS, at(j, BLOCKS, block, B_STATEMENT)) ||
           blame(j, BLOCKS, block, B_STATEMENT, "there is no such statement: there are %d", count(j, STATEMENTS));
}

static bool are_blocks_numbered(struct judge *j)
{
    int next = 0;
    if (count(j, BLOCKS) == 0)
        return blame(j, BLOCKS, NOWHERE, NOWHERE, "block 0, the program, is missing");
    for (int block = 0; block < count(j, BLOCKS); block++)
        if (!is_block_numbered(j, block, &next))
            return false;
    return are_all_taken(j, VARIABLES, next, "blocks");
}

/* A node that is there, before its user where that is a node, and of the sort that its place asks. */
static bool is_operand(struct judge *j, int section, int entry, int field, bool is_variable)
{
    int node = at(j, section, entry, field), limit = section == NODES ? entry : count(j, NODES);
    if (node >= limit && section == NODES && node < count(j, NODES))
        return blame(j, section, entry, field, "a node stands after its operands, and node %d does not stand before it", node);
    if (node >= limit)
        return blame(j, section, entry, field, "there is no such node: there are %d", count(j, NODES));
    if (is_variable_kind(at(j, NODES, node, N_KIND)) != is_variable)
        return blame(j, section, entry, field,
                     is_variable ? "a variable is needed; node %d is an expression"
                                 : "an expression is needed; node %d is a variable, and its value would be a node of kind 4",
                     node);
    return true;
}

static bool is_field_numbered(struct judge *j, int node)
{
    if (!is_operand(j, NODES, node, N_P, true))
        return false;
    int type = j->type_of[at(j, NODES, node, N_P)];
    if (type < DECLARED || at(j, TYPES, type - DECLARED, T_KIND) != RECORD)
        return true;
    return at(j, NODES, node, N_Q) < at(j, TYPES, type - DECLARED, T_Q) ||
           blame(j, NODES, node, N_Q, "there is no such field: type %d, a record, has %d, from 0 on", type, at(j, TYPES, type - DECLARED, T_Q));
}

/* String constants take the characters in the order of their nodes. */
static bool is_string_numbered(struct judge *j, int node, int *next)
{
    if (!j->t.has_characters)
        return blame(j, NODES, node, N_KIND, "a string constant needs characters; the table ends after the statements, without an eighth section");
    if (at(j, NODES, node, N_Q) < 1)
        return blame(j, NODES, node, N_Q, "a string constant has at least 1 character");
    return takes_next(j, NODES, node, N_P, N_Q, CHARACTERS, next);
}

static bool is_node_numbered(struct judge *j, int node, int *next)
{
    switch (at(j, NODES, node, N_KIND)) {
    case CONSTANT:
        return at(j, NODES, node, N_P) <= CHARACTER || blame(j, NODES, node, N_P, "a constant's type is 0 (integer), 1 (boolean) or 2 (char)");
    case WHOLE:
        return has_entry(&j->t, VARIABLES, at(j, NODES, node, N_P)) ||
               blame(j, NODES, node, N_P, "there is no such variable: there are %d", count(j, VARIABLES));
    case FIELD: return is_field_numbered(j, node);
    case ELEMENT: return is_operand(j, NODES, node, N_P, true) && is_operand(j, NODES, node, N_Q, false);
    case VALUE: return is_operand(j, NODES, node, N_P, true);
    case UNARY: return is_operand(j, NODES, node, N_P, false);
    case BINARY: return is_operand(j, NODES, node, N_P, false) && is_operand(j, NODES, node, N_Q, false);
    case STRING: return is_string_numbered(j, node, next);
    default:
        return is_operand(j, NODES, node, N_P, false) &&
               (at(j, NODES, node, N_Q) <= CHARACTER || blame(j, NODES, node, N_Q, "a transfer leads to type 0 (integer), 1 (boolean) or 2 (char)"));
    }
}

static bool are_nodes_numbered(struct judge *j)
{
    int next = 0;
    for (int i = 0; i < count(j, ARGUMENTS); i++)
        if (!has_entry(&j->t, NODES, at(j, ARGUMENTS, i, A_NODE)))
            return blame(j, ARGUMENTS, i, A_NODE, "there is no such node: there are %d", count(j, NODES));
    for (int i = 0; i < count(j, NODES); i++) {
        if (!is_node_numbered(j, i, &next))
            return false;
        j->type_of[i] = is_variable_kind(at(j, NODES, i, N_KIND)) ? variable_type(j, i) : NO_TYPE;
    }
    return are_all_taken(j, CHARACTERS, next, "string constants");
}

static bool is_procedure_named(struct judge *j, int statement, int field)
{
    int block = at(j, STATEMENTS, statement, field);
    if (!has_entry(&j->t, BLOCKS, block))
        return blame(j, STATEMENTS, statement, field, "there is no such block: there are %d", count(j, BLOCKS));
    return at(j, BLOCKS, block, B_KIND) == PROCEDURE ||
           blame(j, STATEMENTS, statement, field, "a procedure is called; block %d is a %s", block, kind_name(BLOCKS, at(j, BLOCKS, block, B_KIND)));
}

static bool is_link_there(struct judge *j, int statement)
{
    return has_entry(&j->t, STATEMENTS, at(j, STATEMENTS, statement, S_LINK)) ||
           blame(j, STATEMENTS, statement, S_LINK, "there is no such statement: there are %d", count(j, STATEMENTS));
}

static bool is_statement_numbered(struct judge *j, int i, int *next)
{
    int kind = at(j, STATEMENTS, i, S_KIND);
    if (has_arguments(kind) && !takes_next(j, STATEMENTS, i, S_C, S_D, ARGUMENTS, next))
        return false;
    switch (kind) {
    case ASSIGN: return is_operand(j, STATEMENTS, i, S_A, true) && is_operand(j, STATEMENTS, i, S_B, false);
    case CALL: return is_procedure_named(j, i, S_A);
    case PROCESS_CALL: return is_operand(j, STATEMENTS, i, S_A, true) && is_procedure_named(j, i, S_B);
    case CREATE:
    case START: return is_operand(j, STATEMENTS, i, S_A, true);
    case ARM: return is_operand(j, STATEMENTS, i, S_A, false) && is_link_there(j, i);
    case END: return is_link_there(j, i);
    case WRITE: return is_operand(j, STATEMENTS, i, S_A, false) && is_operand(j, STATEMENTS, i, S_B, false);
    case BLOCK_END:
        return has_entry(&j->t, BLOCKS, at(j, STATEMENTS, i, S_A)) ||
               blame(j, STATEMENTS, i, S_A, "there is no such block: there are %d", count(j, BLOCKS));
    default: return true;
    }
}

bool judge_numbers(struct judge *j)
{
    int next = 0;
    if (!are_types_numbered(j) || !are_variables_numbered(j) || !are_blocks_numbered(j) || !are_nodes_numbered(j))
        return false;
    for (int i = 0; i < count(j, STATEMENTS); i++)
        if (!is_statement_numbered(j, i, &next))
            return false;
    return are_all_taken(j, ARGUMENTS, next, "calls and starts");
}
