/* The rules of sizes (7), scopes (8) and types (9). */
#include "judge.h"

enum { TYPE_WORDS_MAX = 200, MODULE_WORDS_MAX = 256 };

/* ---- 7: sizes */

static bool is_in_type(int type, int number)
{
    return type == INTEGER || (number >= 0 && number <= (type == BOOLEAN ? 1 : 127));
}

static const char *standard_name(int type)
{
    static const char *const names[] = {"integer", "boolean", "char"};
    return names[type];
}

static int elements_of(const struct judge *j, int type)
{
    return at(j, TYPES, type - DECLARED, T_HIGH) - at(j, TYPES, type - DECLARED, T_LOW) + 1;
}

static bool are_bounds_right(struct judge *j, int i)
{
    int index = at(j, TYPES, i, T_P), low = at(j, TYPES, i, T_LOW), high = at(j, TYPES, i, T_HIGH);
    if (!is_in_type(index, low))
        return blame(j, TYPES, i, T_LOW, "the bound is no %s, and that is the type of the index", standard_name(index));
    if (!is_in_type(index, high))
        return blame(j, TYPES, i, T_HIGH, "the bound is no %s, and that is the type of the index", standard_name(index));
    if (low > high)
        return blame(j, TYPES, i, T_LOW, "low is above high, %d", high);
    if (at(j, TYPES, i, T_Q) == CHARACTER && (high - low) % 2 == 0)
        return blame(j, TYPES, i, T_HIGH, "the elements of a character array are even in number, and these are %d", high - low + 1);
    return true;
}

static bool is_type_sized(struct judge *j, int i)
{
    int kind = at(j, TYPES, i, T_KIND), words = 1;
    if (kind == RECORD) {
        words = 0;
        for (int k = 0; k < at(j, TYPES, i, T_Q); k++)
            words += j->words[at(j, FIELDS, at(j, TYPES, i, T_P) + k, F_TYPE)];
    }
    if (kind == ARRAY) {
        if (!are_bounds_right(j, i))
            return false;
        words = elements_of(j, DECLARED + i) * j->words[at(j, TYPES, i, T_Q)];
    }
    j->words[DECLARED + i] = words;
    return words <= TYPE_WORDS_MAX ||
           blame(j, TYPES, i, kind == ARRAY ? T_HIGH : T_Q, "a type has at most %d words, and this one, type %d, has %d", TYPE_WORDS_MAX,
                 DECLARED + i, words);
}

bool judge_sizes(struct judge *j)
{
    for (int type = 0; type < DECLARED; type++)
        j->words[type] = 1;
    for (int i = 0; i < count(j, TYPES); i++)
        if (!is_type_sized(j, i))
            return false;
    for (int block = 0; block < count(j, BLOCKS); block++) {
        int words = 0;
        for (int i = 0; i < at(j, BLOCKS, block, B_VARIABLES); i++)
            words += j->words[at(j, VARIABLES, at(j, BLOCKS, block, B_FIRST) + i, V_TYPE)];
        if (at(j, BLOCKS, block, B_KIND) != PROCEDURE && words > MODULE_WORDS_MAX)
            return blame(j, BLOCKS, block, B_VARIABLES, "the variables of a module or of block 0 have at most %d words, and these have %d",
                         MODULE_WORDS_MAX, words);
    }
    return true;
}

/* ---- 8: scopes */

/* A node is of the block of its user. */
static void hand_down(struct judge *j, int section, int entry, int block)
{
    for (int field = 0; field < field_count(section); field++)
        if (node_fields(j, section, entry) & BIT(field))
            j->block_of[at(j, section, entry, field)] = block;
}

static bool is_call_in_module(struct judge *j, int statement)
{
    int callee = at(j, BLOCKS, at(j, STATEMENTS, statement, S_A), B_OWNER), caller = at(j, BLOCKS, j->block_at[statement], B_OWNER);
    return callee == caller || blame(j, STATEMENTS, statement, S_A,
                                     "a local call stays in its module: the procedure is of block %d, the caller of block %d", callee, caller);
}

static bool is_variable_in_scope(struct judge *j, int node)
{
    int block = j->block_of[node], owner = at(j, BLOCKS, block, B_OWNER), home = j->home[at(j, NODES, node, N_P)];
    return home == block || home == owner ||
           blame(j, NODES, node, N_P,
                 "it is a variable of block %d; the node is of block %d, whose owner is %d, and only variables of these can be named", home, block,
                 owner);
}

bool judge_scopes(struct judge *j)
{
    for (int i = 0; i < count(j, STATEMENTS); i++) {
        int kind = at(j, STATEMENTS, i, S_KIND);
        hand_down(j, STATEMENTS, i, j->block_at[i]);
        for (int k = 0; has_arguments(kind) && k < at(j, STATEMENTS, i, S_D); k++)
            hand_down(j, ARGUMENTS, at(j, STATEMENTS, i, S_C) + k, j->block_at[i]);
        if (kind == CALL && !is_call_in_module(j, i))
            return false;
    }
    for (int i = count(j, NODES); i-- > 0;)
        hand_down(j, NODES, i, j->block_of[i]);
    for (int i = 0; i < count(j, NODES); i++)
        if (at(j, NODES, i, N_KIND) == WHOLE && !is_variable_in_scope(j, i))
            return false;
    return true;
}

/* ---- 9: types */

static int kind_of(const struct judge *j, int type)
{
    return type < DECLARED || type >= STRING_TYPE ? 0 : at(j, TYPES, type - DECLARED, T_KIND);
}

static bool is_string(const struct judge *j, int type)
{
    return type >= STRING_TYPE || (kind_of(j, type) == ARRAY && at(j, TYPES, type - DECLARED, T_Q) == CHARACTER);
}

static int length_of(const struct judge *j, int string)
{
    return string >= STRING_TYPE ? string - STRING_TYPE : elements_of(j, string);
}

/* Strings of two lengths: as a value argument the one is filled or cut to the other. */
static bool are_fitted(const struct judge *j, int a, int b)
{
    return is_string(j, a) && is_string(j, b) && length_of(j, a) != length_of(j, b);
}

static bool do_match(const struct judge *j, int a, int b)
{
    return a == b || (is_string(j, a) && is_string(j, b) && length_of(j, a) == length_of(j, b));
}

static const char *sort_name(int kind)
{
    return kind == RECORD ? "a record" : kind == ARRAY ? "an array" : "a process";
}

/* A type in words, after 'type': 'integer', '5, a record', '6, a string of 4'; a constant's is 'string of 4'. Two may be asked for in one
 * sentence. */
static const char *words_of(const struct judge *j, int type)
{
    static char words[4][40];
    static int turn;
    if (type < DECLARED)
        return standard_name(type);
    char *into = words[turn++ % 4];
    if (type >= STRING_TYPE)
        snprintf(into, sizeof words[0], "string of %d", length_of(j, type));
    else if (is_string(j, type))
        snprintf(into, sizeof words[0], "%d, a string of %d", type, length_of(j, type));
    else
        snprintf(into, sizeof words[0], "%d, %s", type, sort_name(kind_of(j, type)));
    return into;
}

/* Where matching types are needed: says so, or that strings of two lengths do not match. */
static bool blame_unmatched(struct judge *j, int section, int entry, int field, int a, int b, const char *rule)
{
    if (are_fitted(j, a, b))
        return blame(j, section, entry, field, "a string of %d does not match one of %d: only value arguments are filled or cut", length_of(j, b),
                     length_of(j, a));
    return blame(j, section, entry, field, rule, words_of(j, a), words_of(j, b));
}

/* The field names a node of this type. */
static bool has_type(struct judge *j, int section, int entry, int field, int type, const char *what)
{
    int found = j->type_of[at(j, section, entry, field)];
    return found == type || blame(j, section, entry, field, "%s is of type %s; node %d is of type %s", what, words_of(j, type),
                                  at(j, section, entry, field), words_of(j, found));
}

static bool has_kind(struct judge *j, int section, int entry, int field, int kind, const char *what)
{
    int node = at(j, section, entry, field);
    return kind_of(j, j->type_of[node]) == kind ||
           blame(j, section, entry, field, "%s is of %s type; node %d is of type %s", what, sort_name(kind), node, words_of(j, j->type_of[node]));
}

static bool is_constant_typed(struct judge *j, int node)
{
    int type = at(j, NODES, node, N_P);
    j->type_of[node] = type;
    return is_in_type(type, at(j, NODES, node, N_V)) ||
           blame(j, NODES, node, N_V, "it is no %s: a boolean is 0..1, a char 0..127", standard_name(type));
}

static bool is_element_typed(struct judge *j, int node)
{
    if (!has_kind(j, NODES, node, N_P, ARRAY, "the variable that is indexed"))
        return false;
    int array = j->type_of[at(j, NODES, node, N_P)];
    j->type_of[node] = at(j, TYPES, array - DECLARED, T_Q);
    return has_type(j, NODES, node, N_Q, at(j, TYPES, array - DECLARED, T_P), "the index of this array");
}

static bool is_unary_typed(struct judge *j, int node)
{
    int operand = j->type_of[at(j, NODES, node, N_P)];
    j->type_of[node] = operand;
    if (at(j, NODES, node, N_Q) != NOT)
        return has_type(j, NODES, node, N_P, INTEGER, "the operand of minus or val");
    return operand == INTEGER || operand == BOOLEAN ||
           blame(j, NODES, node, N_P, "the operand of not is integer or boolean; node %d is of type %s", at(j, NODES, node, N_P),
                 words_of(j, operand));
}

/* The left operand, of an operator that is no = or <>. */
static bool is_left_typed(struct judge *j, int node, int sign, int type)
{
    static const struct {
        int last_type;
        const char *rule;
    } rules[] = {{CHARACTER, "order relations take standard types"},
                 {INTEGER, "+ - * / mod take integers"},
                 {BOOLEAN, "and, or take integers or booleans"}};
    int i = sign < PLUS ? 0 : sign <= MOD ? 1 : 2;
    return type <= rules[i].last_type || blame(j, NODES, node, N_P, "%s; the left operand is of type %s", rules[i].rule, words_of(j, type));
}

static bool is_binary_typed(struct judge *j, int node)
{
    int sign = at(j, NODES, node, N_V), a = j->type_of[at(j, NODES, node, N_P)], b = j->type_of[at(j, NODES, node, N_Q)];
    j->type_of[node] = sign <= NOT_LESS ? BOOLEAN : a;
    if (sign <= UNEQUAL)
        return do_match(j, a, b) ||
               blame_unmatched(j, NODES, node, N_Q, a, b, "= and <> take matching types; the left is of type %s, the right of type %s");
    if (!is_left_typed(j, node, sign, a))
        return false;
    return a == b || blame(j, NODES, node, N_Q, "both operands are of one type; the left is of type %s, the right of type %s", words_of(j, a),
                           words_of(j, b));
}

static bool is_node_typed(struct judge *j, int node)
{
    int p = at(j, NODES, node, N_P);
    switch (at(j, NODES, node, N_KIND)) {
    case CONSTANT: return is_constant_typed(j, node);
    case WHOLE: j->type_of[node] = variable_type(j, node); return true;
    case FIELD:
        if (!has_kind(j, NODES, node, N_P, RECORD, "the variable of which a field is taken"))
            return false;
        j->type_of[node] = variable_type(j, node);
        return true;
    case ELEMENT: return is_element_typed(j, node);
    case VALUE: j->type_of[node] = j->type_of[p]; return true;
    case UNARY: return is_unary_typed(j, node);
    case BINARY: return is_binary_typed(j, node);
    case STRING: j->type_of[node] = STRING_TYPE + (at(j, NODES, node, N_Q) + 1) / 2 * 2; return true;
    default:
        j->type_of[node] = at(j, NODES, node, N_Q);
        return j->type_of[p] <= CHARACTER ||
               blame(j, NODES, node, N_P, "a transfer is of a standard type; node %d is of type %s", p, words_of(j, j->type_of[p]));
    }
}

static bool is_argument_typed(struct judge *j, int argument, int variable)
{
    int node = at(j, ARGUMENTS, argument, A_NODE), type = at(j, VARIABLES, variable, V_TYPE), found = j->type_of[node];
    bool is_var = at(j, VARIABLES, variable, V_MODE) == VAR_PARAMETER, is_node_var = is_variable_kind(at(j, NODES, node, N_KIND));
    if (is_var != is_node_var)
        return blame(j, ARGUMENTS, argument, A_NODE, "parameter %d is a %s parameter and takes %s; node %d is %s", variable, is_var ? "var" : "value",
                     is_var ? "a variable" : "an expression", node, is_node_var ? "a variable" : "an expression");
    if (is_var ? found != type : !do_match(j, found, type) && !are_fitted(j, found, type))
        return blame(j, ARGUMENTS, argument, A_NODE, "parameter %d takes %s type, type %s; node %d is of type %s", variable,
                     is_var ? "the same" : "a matching", words_of(j, type), node, words_of(j, found));
    return true;
}

static bool are_arguments_typed(struct judge *j, int statement, int block)
{
    int given = at(j, STATEMENTS, statement, S_D), parameters = at(j, BLOCKS, block, B_PARAMETERS);
    if (given != parameters)
        return blame(j, STATEMENTS, statement, S_D, "block %d has %d parameters, and takes as many arguments", block, parameters);
    for (int k = 0; k < given; k++)
        if (!is_argument_typed(j, at(j, STATEMENTS, statement, S_C) + k, at(j, BLOCKS, block, B_FIRST) + k))
            return false;
    return true;
}

/* The module that the type of the node in field a names. */
static int module_of(const struct judge *j, int statement)
{
    return at(j, TYPES, j->type_of[at(j, STATEMENTS, statement, S_A)] - DECLARED, T_P);
}

static bool is_process_call_typed(struct judge *j, int i)
{
    int procedure = at(j, STATEMENTS, i, S_B);
    if (!has_kind(j, STATEMENTS, i, S_A, PROCESS, "the variable of a process call"))
        return false;
    if (at(j, BLOCKS, procedure, B_OWNER) != module_of(j, i))
        return blame(j, STATEMENTS, i, S_B, "the procedure is of block %d; the variable's module is block %d", at(j, BLOCKS, procedure, B_OWNER),
                     module_of(j, i));
    return are_arguments_typed(j, i, procedure);
}

static bool is_assignment_typed(struct judge *j, int i)
{
    int a = j->type_of[at(j, STATEMENTS, i, S_A)], b = j->type_of[at(j, STATEMENTS, i, S_B)];
    return do_match(j, a, b) ||
           blame_unmatched(j, STATEMENTS, i, S_B, a, b, "an assignment takes matching types; the variable is of type %s, the expression of type %s");
}

static bool is_statement_typed(struct judge *j, int i)
{
    switch (at(j, STATEMENTS, i, S_KIND)) {
    case ASSIGN: return is_assignment_typed(j, i);
    case CALL: return are_arguments_typed(j, i, at(j, STATEMENTS, i, S_A));
    case PROCESS_CALL: return is_process_call_typed(j, i);
    case CREATE: return has_kind(j, STATEMENTS, i, S_A, PROCESS, "the variable of a create");
    case START: return has_kind(j, STATEMENTS, i, S_A, PROCESS, "the variable of a start") && are_arguments_typed(j, i, module_of(j, i));
    case ARM: return has_type(j, STATEMENTS, i, S_A, BOOLEAN, "a guard");
    case WRITE:
        return has_type(j, STATEMENTS, i, S_A, INTEGER, "the address of a write") && has_type(j, STATEMENTS, i, S_B, INTEGER, "the value of a write");
    default: return true;
    }
}

static bool are_parameters_simple(struct judge *j, int module)
{
    for (int k = 0; k < at(j, BLOCKS, module, B_PARAMETERS); k++) {
        int variable = at(j, BLOCKS, module, B_FIRST) + k, type = at(j, VARIABLES, variable, V_TYPE);
        if (at(j, VARIABLES, variable, V_MODE) != VALUE_PARAMETER)
            return blame(j, VARIABLES, variable, V_MODE, "the parameters of a process module are value parameters");
        if (kind_of(j, type) == RECORD || kind_of(j, type) == ARRAY)
            return blame(j, VARIABLES, variable, V_TYPE, "the parameters of a process module are of simple or process types");
    }
    return true;
}

bool judge_types(struct judge *j)
{
    for (int i = 0; i < count(j, NODES); i++)
        if (!is_node_typed(j, i))
            return false;
    for (int i = 0; i < count(j, STATEMENTS); i++)
        if (!is_statement_typed(j, i))
            return false;
    for (int block = 0; block < count(j, BLOCKS); block++)
        if (at(j, BLOCKS, block, B_KIND) == MODULE && !are_parameters_simple(j, block))
            return false;
    for (int i = 0; i < count(j, CHARACTERS); i++)
        if (!is_in_type(CHARACTER, at(j, CHARACTERS, i, C_CHARACTER)))
            return blame(j, CHARACTERS, i, C_CHARACTER, "a character is 0..127");
    return true;
}
