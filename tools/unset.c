/* The library answers 31 and does not say of what. The statement at which the process stands is gone through in the order of evaluation up to the
 * first retrieval of an unmarked word. All that comes before it has been evaluated and has not failed, so no failure is looked for; guards before
 * it were false. */
#include "unset.h"
#include "joyce.h"

struct search {
    const struct view *view;
    const uint8_t *page;
    unsigned process, block;
    struct record record;
    bool is_over;             /* it is found, or something is met that cannot be */
    int node;                 /* the variable node that is found, or -1 */
    unsigned location, place; /* its first unmarked word, and how many stand before it */
};

static int at(const struct search *s, int section, int entry, int field)
{
    return get(s->view->text.table, section, entry, field);
}

static int kind(const struct search *s, int node)
{
    return at(s, NODES, node, N_KIND);
}

/* ---- types */

static int type_of(const struct search *s, int node)
{
    int p = at(s, NODES, node, N_P), q = at(s, NODES, node, N_Q), sign = at(s, NODES, node, N_V);
    switch (kind(s, node)) {
    case CONSTANT: return p;
    case WHOLE: return at(s, VARIABLES, p, V_TYPE);
    case FIELD: return at(s, FIELDS, at(s, TYPES, type_of(s, p) - DECLARED, T_P) + q, F_TYPE);
    case ELEMENT: return at(s, TYPES, type_of(s, p) - DECLARED, T_Q);
    case BINARY: return sign <= NOT_LESS ? BOOLEAN : type_of(s, p);
    case TRANSFER: return q;
    default: return type_of(s, p); /* a value, a unary operator */
    }
}

static unsigned words_of(const struct search *s, int node)
{
    if (kind(s, node) == STRING)
        return (unsigned)(at(s, NODES, node, N_Q) + 1) / 2 * 2;
    return s->view->words[type_of(s, node)];
}

/* ---- variables */

/* The location of a whole variable: of the innermost call, or of the module that the process works on. */
static unsigned locate_whole(const struct search *s, unsigned variable)
{
    const struct view *v = s->view;
    unsigned first = (unsigned)at(s, BLOCKS, (int)s->block, B_FIRST), count = (unsigned)at(s, BLOCKS, (int)s->block, B_VARIABLES);
    bool is_local = at(s, BLOCKS, (int)s->block, B_KIND) == PROCEDURE && variable >= first && variable < first + count;
    unsigned owner = is_local ? s->process : s->record.works;
    unsigned location = (owner - 1) * JOYCE_AREA_WORDS + (is_local ? s->record.frame + JOYCE_CALL_WORDS : 0);
    if (!is_local)
        first = (unsigned)at(s, BLOCKS, (int)record_of(v->state, owner).module, B_FIRST);
    for (; first < variable; first++)
        location += variable_words(v, first);
    return at(s, VARIABLES, (int)variable, V_MODE) == VAR_PARAMETER ? state_word(v->state, location) : location;
}

static int evaluate(struct search *s, int node);

static unsigned locate(struct search *s, int node)
{
    int p = at(s, NODES, node, N_P), q = at(s, NODES, node, N_Q);
    if (kind(s, node) == WHOLE)
        return locate_whole(s, (unsigned)p);
    unsigned location = locate(s, p);
    int entry = type_of(s, p) - DECLARED;
    if (kind(s, node) == FIELD) {
        for (int i = 0; i < q; i++)
            location += s->view->words[at(s, FIELDS, at(s, TYPES, entry, T_P) + i, F_TYPE)];
        return location;
    }
    int index = s->is_over ? 0 : evaluate(s, q), low = at(s, TYPES, entry, T_LOW);
    s->is_over = s->is_over || index < low || index > at(s, TYPES, entry, T_HIGH);
    return s->is_over ? 0 : location + (unsigned)(index - low) * words_of(s, node);
}

/* The location of a variable that is retrieved. */
static unsigned retrieve(struct search *s, int node)
{
    unsigned location = locate(s, node), words = words_of(s, node);
    for (unsigned i = 0; i < words && !s->is_over; i++)
        if (!is_marked(s->view->state, location + i)) {
            s->is_over = true;
            s->node = node;
            s->location = location + i;
            s->place = i;
        }
    return location;
}

/* ---- expressions */

static int evaluate_unary(struct search *s, int node, int operand)
{
    switch (at(s, NODES, node, N_Q)) {
    case MINUS: return -operand;
    case NOT: return type_of(s, node) == BOOLEAN ? !operand : ~operand;
    default:
        s->is_over = s->is_over || operand < JOYCE_ADDRESS_MIN || operand > JOYCE_ADDRESS_MAX || operand % 2 != 0;
        return s->is_over ? 0 : joyce_get(s->page, operand);
    }
}

static int apply(struct search *s, int sign, int a, int b)
{
    switch (sign) {
    case EQUAL: return a == b;
    case UNEQUAL: return a != b;
    case LESS: return a < b;
    case NOT_GREATER: return a <= b;
    case GREATER: return a > b;
    case NOT_LESS: return a >= b;
    case PLUS: return a + b;
    case DIFFERENCE: return a - b;
    case TIMES: return a * b;
    case AND: return a & b;
    case OR: return a | b;
    default:
        s->is_over = s->is_over || b == 0;
        return s->is_over ? 0 : sign == DIVIDE ? a / b : a % b;
    }
}

/* Values of several words are values of variables and string constants. */
static unsigned retrieve_words(struct search *s, int node)
{
    return s->is_over || kind(s, node) == STRING ? 0 : retrieve(s, at(s, NODES, node, N_P));
}

/* A word of one, which stands at the location if it is a variable's. */
static unsigned value_word(const struct search *s, int node, unsigned location, unsigned i)
{
    if (kind(s, node) != STRING)
        return state_word(s->view->state, location + i);
    return (int)i < at(s, NODES, node, N_Q) ? (unsigned)at(s, CHARACTERS, at(s, NODES, node, N_P) + (int)i, C_CHARACTER) : 0;
}

static int compare(struct search *s, int node)
{
    int left = at(s, NODES, node, N_P), right = at(s, NODES, node, N_Q);
    unsigned words = words_of(s, left), a = retrieve_words(s, left), b = retrieve_words(s, right), i = 0;
    while (!s->is_over && i < words && value_word(s, left, a, i) == value_word(s, right, b, i))
        i++;
    return (i == words) == (at(s, NODES, node, N_V) == EQUAL);
}

/* The value of an expression. Of one of several words, a variable's or a string constant, only that it can be retrieved. */
static int evaluate(struct search *s, int node)
{
    int p = at(s, NODES, node, N_P), q = at(s, NODES, node, N_Q), a;
    unsigned location;
    switch (kind(s, node)) {
    case CONSTANT: return at(s, NODES, node, N_V);
    case STRING: return 0;
    case VALUE:
        location = retrieve(s, p);
        return s->is_over ? 0 : joyce_integer(state_word(s->view->state, location));
    case BINARY:
        if (words_of(s, p) > 1)
            return compare(s, node);
        a = evaluate(s, p);
        return s->is_over ? 0 : apply(s, at(s, NODES, node, N_V), a, evaluate(s, q));
    case UNARY:
        a = evaluate(s, p);
        return s->is_over ? 0 : evaluate_unary(s, node, a);
    default: return evaluate(s, p); /* a transfer */
    }
}

/* ---- statements */

/* A variable is located, an expression evaluated. */
static void meet(struct search *s, int node)
{
    if (s->is_over)
        return;
    if (is_variable_kind(kind(s, node)))
        locate(s, node);
    else
        evaluate(s, node);
}

static void meet_arguments(struct search *s, int statement)
{
    int first = at(s, STATEMENTS, statement, S_C), count = at(s, STATEMENTS, statement, S_D);
    for (int i = first; i < first + count; i++)
        meet(s, at(s, ARGUMENTS, i, A_NODE));
}

static void meet_statement(struct search *s, int statement)
{
    int a = at(s, STATEMENTS, statement, S_A), b = at(s, STATEMENTS, statement, S_B);
    switch (at(s, STATEMENTS, statement, S_KIND)) {
    case ASSIGN:
    case WRITE:
        meet(s, a);
        meet(s, b);
        break;
    case CALL: meet_arguments(s, statement); break;
    case PROCESS_CALL:
    case START:
        retrieve(s, a);
        meet_arguments(s, statement);
        break;
    case CREATE: meet(s, a); break;
    case IF:
    case WHILE:
    case WHEN:
    case CYCLE:
        for (int i = statement + 1; at(s, STATEMENTS, i, S_KIND) == ARM; i = at(s, STATEMENTS, i, S_LINK))
            meet(s, at(s, STATEMENTS, i, S_A));
        break;
    default: break; /* nothing is evaluated */
    }
}

bool write_unset(struct view *v, const uint8_t *page, unsigned process)
{
    struct search s = {.view = v, .page = page, .process = process, .node = -1};
    if (process < 1 || process > created_of(v->state))
        return false;
    s.record = record_of(v->state, process);
    s.block = block_of(v->state, process);
    if (s.record.status != STARTED)
        return false;
    meet_statement(&s, (int)s.record.statement);
    if (s.node < 0)
        return false;
    write_node(&v->text, s.node);
    fputs(" has no value", v->text.out);
    if (words_of(&s, s.node) > 1)
        fprintf(v->text.out, " at place %u", s.place);
    fprintf(v->text.out, " (word %u of process %u)", s.location % JOYCE_AREA_WORDS, s.location / JOYCE_AREA_WORDS + 1);
    return true;
}
