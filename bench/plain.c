#include "plain.h"

#include "program.h"

/* ---- 2: sections */

struct reader { const uint8_t *at, *end; };

static uint16_t word(const uint8_t *p)
{
    return (uint16_t)(p[0] | p[1] << 8);
}

static const uint8_t *rows(struct reader *r, int size, int *count)
{
    if (r->at == r->end)
        return NULL;
    const uint8_t *first = r->at + 1;
    *count = *r->at;
    if (r->end - first < *count * size)
        return NULL;
    r->at = first + *count * size;
    return first;
}

static bool decode(struct program *g, const uint8_t *table, size_t length)
{
    struct reader r = {table, table + length};
    const uint8_t *p;
    if (!(p = rows(&r, 7, &g->types)))
        return false;
    for (int i = 0; i < g->types; i++, p += 7)
        g->type[DECLARED + i] = (struct type){p[0], p[1], p[2], word(p + 3), word(p + 5)};
    if (!(p = rows(&r, 1, &g->fields)))
        return false;
    for (int i = 0; i < g->fields; i++)
        g->field[i] = p[i];
    if (!(p = rows(&r, 2, &g->variables)))
        return false;
    for (int i = 0; i < g->variables; i++, p += 2)
        g->variable[i] = (struct variable){p[0], p[1]};
    if (!(p = rows(&r, 8, &g->blocks)))
        return false;
    for (int i = 0; i < g->blocks; i++, p += 8)
        g->block[i] = (struct block){p[0], p[1], p[2], p[3], p[4], p[5], word(p + 6)};
    if (!(p = rows(&r, 1, &g->arguments)))
        return false;
    for (int i = 0; i < g->arguments; i++)
        g->argument[i] = p[i];
    if (!(p = rows(&r, 5, &g->nodes)))
        return false;
    for (int i = 0; i < g->nodes; i++, p += 5)
        g->node[i] = (struct node){p[0], p[1], p[2], word(p + 3)};
    if (!(p = rows(&r, 6, &g->statements)))
        return false;
    for (int i = 0; i < g->statements; i++, p += 6)
        g->statement[i] = (struct statement){p[0], p[1], p[2], p[3], p[4], p[5]};
    g->characters = 0;
    if (r.at == r.end)
        return true;
    if (!(p = rows(&r, 1, &g->characters)))
        return false;
    for (int i = 0; i < g->characters; i++)
        g->character[i] = p[i];
    return r.at == r.end;
}

/* ---- 3: kinds, modes, operators, unused fields */

static bool is_call(int kind)
{
    return kind == LOCAL_CALL || kind == PROCESS_CALL || kind == START;
}

/* The bits that must be 0, by kind. */
enum { X = 0xFF };
static const uint8_t unused_q[] = {X, X, 0, 0, X, 0, 0, 0, 0};
static const uint16_t unused_v[] = {0, 0xFFFF, 0xFFFF, 0xFFFF, 0xFFFF, 0xFFFF, 0, 0xFFFF, 0xFFFF};
static const struct statement unused[] = {
    [SKIP] = {0, X, X, X, X, X}, [ASSIGN] = {0, 0, 0, X, X, X}, [LOCAL_CALL] = {0, 0, X, 0, 0, X}, [PROCESS_CALL] = {0, 0, 0, 0, 0, X},
    [CREATE] = {0, 0, X, X, X, X}, [START] = {0, 0, X, 0, 0, X}, [IF] = {0, X, X, X, X, X}, [WHILE] = {0, X, X, X, X, X},
    [WHEN] = {0, X, X, X, X, X}, [CYCLE] = {0, X, X, X, X, X}, [ARM] = {0, 0, X, X, X, 0}, [END] = {0, X, X, X, X, 0},
    [WRITE] = {0, 0, 0, X, X, X}, [BLOCK_END] = {0, 0, X, X, X, X},
};

static bool kinds(const struct program *g)
{
    for (int i = DECLARED; i < DECLARED + g->types; i++) {
        struct type t = g->type[i];
        if (t.kind < RECORD || t.kind > PROCESS || (t.kind == PROCESS && t.q) || (t.kind != ARRAY && (t.low || t.high)))
            return false;
    }
    for (int i = 0; i < g->variables; i++)
        if (g->variable[i].mode > VAR_PARAMETER)
            return false;
    for (int i = 0; i < g->blocks; i++)
        if (g->block[i].kind > PROCEDURE)
            return false;
    for (int i = 0; i < g->nodes; i++) {
        const struct node *n = &g->node[i];
        if (n->kind > TEXT || (n->q & unused_q[n->kind]) || (n->v & unused_v[n->kind]))
            return false;
        if ((n->kind == UNARY && (n->q < 1 || n->q > 3)) || (n->kind == BINARY && (n->v < 1 || n->v > 13)))
            return false;
    }
    for (int i = 0; i < g->statements; i++) {
        const struct statement *s = &g->statement[i];
        if (s->kind > BLOCK_END)
            return false;
        const struct statement *u = &unused[s->kind];
        if ((s->a & u->a) | (s->b & u->b) | (s->c & u->c) | (s->d & u->d) | (s->link & u->link))
            return false;
    }
    return true;
}

/* ---- 4: numbers */

static bool is_variable(const struct program *g, int limit, int n)
{
    return n < limit && g->node[n].kind >= WHOLE && g->node[n].kind <= ELEMENT;
}

static bool is_expression(const struct program *g, int limit, int n)
{
    return n < limit && (g->node[n].kind == CONSTANT || g->node[n].kind >= VALUE);
}

static bool is_block(const struct program *g, int b, int kind)
{
    return b < g->blocks && g->block[b].kind == kind;
}

static bool types_numbered(const struct program *g)
{
    int free = 0;
    bool named[256] = {false};
    for (int i = DECLARED; i < DECLARED + g->types; i++) {
        struct type t = g->type[i];
        if (t.kind == RECORD) {
            if (t.p != free || t.q < 1 || t.p + t.q > g->fields)
                return false;
            for (; free < t.p + t.q; free++)
                if (g->field[free] >= i)
                    return false;
        } else if (t.kind == ARRAY) {
            if (t.p > CHARACTER || t.q >= i)
                return false;
        } else {
            if (!is_block(g, t.p, MODULE) || named[t.p])
                return false;
            named[t.p] = true;
        }
    }
    return free == g->fields;
}

static bool blocks_numbered(struct program *g)
{
    int free = 0;
    if (!is_block(g, 0, PROGRAM) || g->block[0].parameters != 0)
        return false;
    for (int i = 0; i < g->variables; i++)
        if (g->variable[i].type >= DECLARED + g->types)
            return false;
    for (int b = 0; b < g->blocks; b++) {
        struct block k = g->block[b];
        if ((b > 0 && k.kind == PROGRAM) || k.first != free || k.parameters > k.variables || k.first + k.variables > g->variables)
            return false;
        for (int i = 0; i < k.variables; i++, free++) {
            if ((g->variable[free].mode == LOCAL) != (i >= k.parameters))
                return false;
            g->home[free] = (uint8_t)b;
        }
        if (k.kind == PROCEDURE ? k.owner >= g->blocks || g->block[k.owner].kind == PROCEDURE : k.owner != b)
            return false;
        if (k.statement >= g->statements || (k.kind == PROCEDURE ? k.space != 0 : k.space > 510 || k.space % 2 != 0))
            return false;
    }
    return free == g->variables;
}

/* The type of a variable node, read off the table. */
static int variable_type(const struct program *g, const struct node *n)
{
    if (n->kind == WHOLE)
        return g->variable[n->p].type;
    int t = g->type_of[n->p];
    if (t < DECLARED || g->type[t].kind != (n->kind == FIELD ? RECORD : ARRAY))
        return NONE;
    return n->kind == FIELD ? g->field[g->type[t].p + n->q] : g->type[t].q;
}

/* `free` is the next character that no node before has taken. */
static bool node_numbered(struct program *g, int i, int *free)
{
    const struct node *n = &g->node[i];
    switch (n->kind) {
    case CONSTANT: return n->p <= CHARACTER;
    case WHOLE: if (n->p >= g->variables) return false; break;
    case FIELD: {
        if (!is_variable(g, i, n->p))
            return false;
        int t = g->type_of[n->p];
        if (t >= DECLARED && g->type[t].kind == RECORD && n->q >= g->type[t].q)
            return false;
        break;
    }
    case ELEMENT: if (!is_variable(g, i, n->p) || !is_expression(g, i, n->q)) return false; break;
    case VALUE: return is_variable(g, i, n->p);
    case UNARY: return is_expression(g, i, n->p);
    case BINARY: return is_expression(g, i, n->p) && is_expression(g, i, n->q);
    case TRANSFER: return is_expression(g, i, n->p) && n->q <= CHARACTER;
    default: {
        bool is_next = n->p == *free && n->q >= 1 && n->p + n->q <= g->characters;
        *free = n->p + n->q;
        return is_next;
    }
    }
    g->type_of[i] = (int16_t)variable_type(g, n);
    return true;
}

static bool statement_numbered(const struct program *g, const struct statement *s, int *free)
{
    if (is_call(s->kind)) {
        if (s->c != *free || s->c + s->d > g->arguments)
            return false;
        *free = s->c + s->d;
    }
    switch (s->kind) {
    case ASSIGN: return is_variable(g, g->nodes, s->a) && is_expression(g, g->nodes, s->b);
    case LOCAL_CALL: return is_block(g, s->a, PROCEDURE);
    case PROCESS_CALL: return is_variable(g, g->nodes, s->a) && is_block(g, s->b, PROCEDURE);
    case CREATE:
    case START: return is_variable(g, g->nodes, s->a);
    case ARM: return is_expression(g, g->nodes, s->a) && s->link < g->statements;
    case END: return s->link < g->statements;
    case WRITE: return is_expression(g, g->nodes, s->a) && is_expression(g, g->nodes, s->b);
    case BLOCK_END: return s->a < g->blocks;
    default: return true;
    }
}

static bool numbers(struct program *g)
{
    int free = 0, free_character = 0;
    if (!types_numbered(g) || !blocks_numbered(g))
        return false;
    for (int i = 0; i < g->arguments; i++)
        if (g->argument[i] >= g->nodes)
            return false;
    for (int i = 0; i < g->nodes; i++)
        if (!node_numbered(g, i, &free_character))
            return false;
    if (free_character != g->characters)
        return false;
    for (int i = 0; i < g->statements; i++)
        if (!statement_numbered(g, &g->statement[i], &free))
            return false;
    return free == g->arguments;
}

/* ---- 5: each node is used once */

/* Which fields name nodes, by kind: of a node p and q, of a statement a and b. */
enum { FIRST = 1, SECOND = 2 };
static const uint8_t node_operands[] = {0, 0, FIRST, FIRST | SECOND, FIRST, FIRST, FIRST | SECOND, FIRST, 0};
static const uint8_t statement_operands[] = {0, FIRST | SECOND, 0, FIRST, FIRST, FIRST, 0, 0, 0, 0, FIRST, 0, FIRST | SECOND, 0};

static bool uses(const struct program *g)
{
    uint16_t used[256];
    for (int i = 0; i < g->nodes; i++)
        used[i] = 0;
    for (int i = 0; i < g->arguments; i++)
        used[g->argument[i]]++;
    for (int i = 0; i < g->nodes; i++) {
        const struct node *n = &g->node[i];
        if (node_operands[n->kind] & FIRST)
            used[n->p]++;
        if (node_operands[n->kind] & SECOND)
            used[n->q]++;
    }
    for (int i = 0; i < g->statements; i++) {
        const struct statement *s = &g->statement[i];
        if (statement_operands[s->kind] & FIRST)
            used[s->a]++;
        if (statement_operands[s->kind] & SECOND)
            used[s->b]++;
    }
    for (int i = 0; i < g->nodes; i++)
        if (used[i] != 1)
            return false;
    return true;
}

/* ---- 6: nesting. Each answers where what begins at i ends, or NONE. */

static int arms_end(const struct program *g, int opener, int i);

static int statement_end(const struct program *g, int i)
{
    if (i >= g->statements)
        return NONE;
    int kind = g->statement[i].kind;
    if (kind >= IF && kind <= CYCLE)
        return arms_end(g, i, i + 1);
    return kind <= START || kind == WRITE ? i + 1 : NONE;
}

static int body_end(const struct program *g, int i)
{
    int end = statement_end(g, i);
    while (end != NONE && end < g->statements && (g->statement[end].kind <= CYCLE || g->statement[end].kind == WRITE))
        end = statement_end(g, end);
    return end;
}

static int arms_end(const struct program *g, int opener, int i)
{
    while (i < g->statements && g->statement[i].kind == ARM) {
        int end = body_end(g, i + 1);
        if (end == NONE || end >= g->statements || g->statement[i].link != end)
            return NONE;
        if (g->statement[end].kind == END)
            return g->statement[end].link == opener ? end + 1 : NONE;
        i = end;
    }
    return NONE;
}

static bool nesting(struct program *g)
{
    int i = 0;
    for (int b = 0; b < g->blocks; b++) {
        if (g->block[b].statement != i)
            return false;
        int end = body_end(g, i);
        if (end == NONE || end >= g->statements || g->statement[end].kind != BLOCK_END || g->statement[end].a != b)
            return false;
        for (; i <= end; i++)
            g->block_at[i] = (uint8_t)b;
    }
    return i == g->statements;
}

/* ---- 7: sizes */

static bool in_type(int type, int value)
{
    return type == INTEGER || (value >= 0 && value <= (type == BOOLEAN ? 1 : 127));
}

static bool sizes(struct program *g)
{
    g->words[INTEGER] = g->words[BOOLEAN] = g->words[CHARACTER] = 1;
    for (int i = DECLARED; i < DECLARED + g->types; i++) {
        const struct type *t = &g->type[i];
        int words = 1;
        if (t->kind == RECORD) {
            words = 0;
            for (int k = 0; k < t->q; k++)
                words += g->words[g->field[t->p + k]];
        } else if (t->kind == ARRAY) {
            if (integer(t->low) > integer(t->high) || !in_type(t->p, integer(t->low)) || !in_type(t->p, integer(t->high)))
                return false;
            if (t->q == CHARACTER && elements(t) % 2 != 0)
                return false;
            words = elements(t) * g->words[t->q];
        }
        if (words > 200)
            return false;
        g->words[i] = (uint8_t)words;
    }
    for (int b = 0; b < g->blocks; b++) {
        int words = 0;
        for (int i = 0; i < g->block[b].variables; i++)
            words += g->words[g->variable[g->block[b].first + i].type];
        if (g->block[b].kind != PROCEDURE && words > 256)
            return false;
    }
    return true;
}

/* ---- 8: scopes */

static bool scopes(struct program *g)
{
    for (int i = 0; i < g->statements; i++) {
        const struct statement *s = &g->statement[i];
        uint8_t b = g->block_at[i];
        if (statement_operands[s->kind] & FIRST)
            g->block_of[s->a] = b;
        if (statement_operands[s->kind] & SECOND)
            g->block_of[s->b] = b;
        for (int k = s->c; k < s->c + s->d; k++) /* 0 but in calls and starts */
            g->block_of[g->argument[k]] = b;
        if (s->kind == LOCAL_CALL && g->block[s->a].owner != g->block[b].owner)
            return false;
    }
    for (int i = g->nodes; i-- > 0;) {
        const struct node *n = &g->node[i];
        uint8_t b = g->block_of[i];
        if (node_operands[n->kind] & FIRST)
            g->block_of[n->p] = b;
        if (node_operands[n->kind] & SECOND)
            g->block_of[n->q] = b;
        if (n->kind == WHOLE && g->home[n->p] != b && g->home[n->p] != g->block[b].owner)
            return false;
    }
    return true;
}

/* ---- 9: types */

static int kind_of(const struct program *g, int type)
{
    return type < DECLARED || type >= TEXT_TYPE ? 0 : g->type[type].kind;
}

static bool is_string(const struct program *g, int type)
{
    return type >= TEXT_TYPE || (kind_of(g, type) == ARRAY && g->type[type].q == CHARACTER);
}

/* Two strings of two lengths fit as value arguments only. */
enum matching { UNFIT, FITTED, EQUAL };

static enum matching match(const struct program *g, int a, int b)
{
    if (a == b)
        return EQUAL;
    if (!is_string(g, a) || !is_string(g, b))
        return UNFIT;
    return value_words(g, a) == value_words(g, b) ? EQUAL : FITTED;
}

static int binary_type(const struct program *g, int operator, int a, int b)
{
    if (operator <= 2)
        return match(g, a, b) == EQUAL ? BOOLEAN : NONE;
    if (a != b)
        return NONE;
    if (operator <= 6)
        return a <= CHARACTER ? BOOLEAN : NONE;
    if (operator <= 11)
        return a == INTEGER ? INTEGER : NONE;
    return a <= BOOLEAN ? a : NONE;
}

static int node_type(const struct program *g, const struct node *n)
{
    int p = node_operands[n->kind] & FIRST ? g->type_of[n->p] : NONE;
    switch (n->kind) {
    case CONSTANT: return in_type(n->p, integer(n->v)) ? n->p : NONE;
    case WHOLE:
    case FIELD: return variable_type(g, n);
    case ELEMENT: return kind_of(g, p) == ARRAY && g->type_of[n->q] == g->type[p].p ? g->type[p].q : NONE;
    case VALUE: return p;
    case UNARY: return p == INTEGER || (p == BOOLEAN && n->q == 2) ? p : NONE;
    case BINARY: return binary_type(g, n->v, p, g->type_of[n->q]);
    case TRANSFER: return p <= CHARACTER ? n->q : NONE;
    default: return TEXT_TYPE + n->q + n->q % 2;
    }
}

static bool arguments_typed(const struct program *g, const struct block *b, const struct statement *s)
{
    if (s->d != b->parameters)
        return false;
    for (int k = 0; k < s->d; k++) {
        struct variable x = g->variable[b->first + k];
        int n = g->argument[s->c + k];
        bool is_var = g->node[n].kind >= WHOLE && g->node[n].kind <= ELEMENT;
        if (x.mode == VAR_PARAMETER ? !is_var || g->type_of[n] != x.type : is_var || match(g, g->type_of[n], x.type) == UNFIT)
            return false;
    }
    return true;
}

static bool statement_typed(const struct program *g, const struct statement *s)
{
    int a;
    switch (s->kind) {
    case ASSIGN: return match(g, g->type_of[s->a], g->type_of[s->b]) == EQUAL;
    case LOCAL_CALL: return arguments_typed(g, &g->block[s->a], s);
    case PROCESS_CALL:
        a = g->type_of[s->a];
        return kind_of(g, a) == PROCESS && g->block[s->b].owner == g->type[a].p && arguments_typed(g, &g->block[s->b], s);
    case CREATE: return kind_of(g, g->type_of[s->a]) == PROCESS;
    case START:
        a = g->type_of[s->a];
        return kind_of(g, a) == PROCESS && arguments_typed(g, &g->block[g->type[a].p], s);
    case ARM: return g->type_of[s->a] == BOOLEAN;
    case WRITE: return g->type_of[s->a] == INTEGER && g->type_of[s->b] == INTEGER;
    default: return true;
    }
}

static bool types(struct program *g)
{
    for (int i = 0; i < g->nodes; i++)
        if ((g->type_of[i] = (int16_t)node_type(g, &g->node[i])) == NONE)
            return false;
    for (int i = 0; i < g->statements; i++)
        if (!statement_typed(g, &g->statement[i]))
            return false;
    for (int b = 0; b < g->blocks; b++)
        for (int k = 0; g->block[b].kind == MODULE && k < g->block[b].parameters; k++) {
            struct variable x = g->variable[g->block[b].first + k];
            if (x.mode != VALUE_PARAMETER || (x.type >= DECLARED && g->type[x.type].kind != PROCESS))
                return false;
        }
    for (int i = 0; i < g->characters; i++)
        if (g->character[i] > 127)
            return false;
    return true;
}

uint32_t plain_decode(struct program *g, const uint8_t *table, size_t length)
{
    /* zero bytes are an empty cartridge slot: block 0, which skips and ends */
    static const uint8_t empty_slot[] = {0, 0, 0, 1, 0, 0, 0, 0, 0, 0, 0, 0, 0, 0, 2, 0, 0, 0, 0, 0, 0, 13, 0, 0, 0, 0, 0};
    if (length == 0) {
        table = empty_slot;
        length = sizeof empty_slot;
    }
    return !decode(g, table, length) ? 2 : !kinds(g) ? 3 : !numbers(g) ? 4 : !uses(g) ? 5 : !nesting(g) ? 6 : !sizes(g) ? 7 : !scopes(g) ? 8
           : !types(g) ? 9 : 0;
}

uint32_t plain_check(const uint8_t *table, size_t length)
{
    struct program g;
    return plain_decode(&g, table, length);
}
