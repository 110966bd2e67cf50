/* A mutator for fuzz/calls.c that knows tables, for libFuzzer and for fuzz/short.c.
 *
 * It changes the head of an input (flags, damages, schedule, looks) or its table. A table is taken apart into statements, each with the trees of its
 * operands and arguments, changed there, and put together again with numbers, links and ranges in order; so most of the changes leave a program, and
 * three of four are tried until joyce_check accepts one. The fourth is kept as it comes, or is a change of single fields or bytes. Where the
 * input has no accepted table, one that was seen before mostly takes its place. */
#include "joyce.h"

#include <stdbool.h>
#include <string.h>

size_t LLVMFuzzerCustomMutator(uint8_t *data, size_t size, size_t max_size, unsigned int seed);
size_t LLVMFuzzerCustomCrossOver(const uint8_t *one, size_t one_size, const uint8_t *two, size_t two_size, uint8_t *out, size_t max_size,
                                 unsigned int seed);

enum { TYPES, FIELDS, VARIABLES, BLOCKS, ARGUMENTS, NODES, STATEMENTS, CHARACTERS, SECTIONS };
enum { ENTRIES = 255, POOL = 1024, ROOM = 64, DEPTH = 8, ARGUMENTS_MAX = 16, HEAD_MAX = 2 + 3 * 7 + 1 + 255 + 3, KEPT = 64, TRIES = 12 };
enum { TEXT_POOL = 8192 };

static const int sizes[SECTIONS] = {7, 1, 2, 8, 1, 5, 6, 1};

static uint64_t random_state = 1979;

static uint32_t below(uint32_t limit)
{
    random_state ^= random_state >> 12;
    random_state ^= random_state << 25;
    random_state ^= random_state >> 27;
    return (uint32_t)((random_state * 0x2545F4914F6CDD1Du) >> 33) % limit;
}

static bool one_in(uint32_t count)
{
    return below(count) == 0;
}

/* ---- a program taken apart */

struct node {
    uint8_t kind, p, q; /* p and q where they are no nodes */
    uint16_t v;
    int left, right;    /* operands in the pool; -1 for none */
    int text;           /* of a string constant: its first character in the pool; q is their number */
};

struct statement {
    uint8_t kind, a, b; /* a and b where they are no nodes */
    int first, second;  /* the nodes a and b; -1 for none */
    int count, arguments[ARGUMENTS_MAX];
};

struct program {
    int counts[SECTIONS];
    uint8_t bytes[BLOCKS + 1][ENTRIES + 1][8]; /* the sections up to the blocks */
    struct node nodes[POOL];
    int node_count;
    struct statement statements[ENTRIES + 8];
    int statement_count;
    uint8_t text[TEXT_POOL];
    int text_length;
    bool has_characters; /* the eighth section is written, though it may be empty */
};

/* Which fields of a node, and of a statement, are nodes: 1 for p or a, 2 for q or b. */
static const uint8_t node_operands[9] = {0, 0, 1, 3, 1, 1, 3, 1, 0};
static const uint8_t statement_operands[14] = {0, 3, 0, 1, 1, 1, 0, 0, 0, 0, 1, 0, 3, 0};

static bool is_call(int kind)
{
    return kind == JOYCE_STATEMENT_CALL || kind == JOYCE_STATEMENT_PROCESS_CALL || kind == JOYCE_STATEMENT_START;
}

static bool is_opener(int kind)
{
    return kind >= JOYCE_STATEMENT_IF && kind <= JOYCE_STATEMENT_CYCLE;
}

static bool is_simple(int kind)
{
    return kind <= JOYCE_STATEMENT_START || kind == JOYCE_STATEMENT_WRITE;
}

/* Where each section's entries begin; false where the table is not whole. The last section may be left out, and then begins at 0. */
static bool find_sections(const uint8_t *table, size_t length, size_t *starts, int *counts)
{
    size_t at = 0;
    counts[CHARACTERS] = 0;
    starts[CHARACTERS] = 0;
    for (int s = 0; s < SECTIONS; s++) {
        if (s == CHARACTERS && at == length)
            break;
        if (at >= length)
            return false;
        counts[s] = table[at];
        starts[s] = at + 1;
        at += 1 + (size_t)counts[s] * (size_t)sizes[s];
    }
    return at == length;
}

static bool take_apart(struct program *p, const uint8_t *table, size_t length)
{
    size_t starts[SECTIONS];
    if (!find_sections(table, length, starts, p->counts))
        return false;
    for (int s = 0; s <= BLOCKS; s++)
        for (int i = 0; i < p->counts[s]; i++)
            memcpy(p->bytes[s][i], table + starts[s] + i * sizes[s], (size_t)sizes[s]);
    p->has_characters = starts[CHARACTERS] > 0;
    p->text_length = p->counts[CHARACTERS];
    memcpy(p->text, table + starts[CHARACTERS], (size_t)p->text_length);
    p->node_count = p->counts[NODES];
    for (int i = 0; i < p->node_count; i++) {
        const uint8_t *e = table + starts[NODES] + 5 * i;
        if (e[0] > JOYCE_NODE_STRING)
            return false;
        int uses = node_operands[e[0]];
        p->nodes[i] = (struct node){e[0], e[1], e[2], (uint16_t)(e[3] + 256 * e[4]), uses & 1 ? e[1] : -1, uses & 2 ? e[2] : -1, e[1]};
        if (p->nodes[i].left >= i || p->nodes[i].right >= i || (e[0] == JOYCE_NODE_STRING && e[1] + e[2] > p->text_length))
            return false;
    }
    p->statement_count = p->counts[STATEMENTS];
    for (int i = 0; i < p->statement_count; i++) {
        const uint8_t *e = table + starts[STATEMENTS] + 6 * i;
        struct statement *s = &p->statements[i];
        if (e[0] > JOYCE_STATEMENT_BLOCK_END)
            return false;
        int uses = statement_operands[e[0]];
        *s = (struct statement){.kind = e[0], .a = e[1], .b = e[2], .first = uses & 1 ? e[1] : -1, .second = uses & 2 ? e[2] : -1};
        s->count = is_call(s->kind) ? e[4] : 0;
        if (s->first >= p->node_count || s->second >= p->node_count || s->count > ARGUMENTS_MAX || e[3] + s->count > p->counts[ARGUMENTS])
            return false;
        for (int k = 0; k < s->count; k++)
            if ((s->arguments[k] = table[starts[ARGUMENTS] + e[3] + k]) >= p->node_count)
                return false;
    }
    return true;
}

/* ---- and put together again */

struct writer {
    const struct program *p;
    uint8_t nodes[ENTRIES][5], arguments[ENTRIES], statements[ENTRIES][6], text[ENTRIES];
    int node_count, argument_count, statement_count, text_length;
    bool is_full;
};

/* Writes the characters of a string constant; the first one's number. */
static int write_text(struct writer *w, const struct node *n)
{
    int first = w->text_length;
    if (first + n->q > ENTRIES) {
        w->is_full = true;
        return 0;
    }
    memcpy(w->text + first, w->p->text + n->text, n->q);
    w->text_length += n->q;
    return first;
}

/* Writes a tree, operands first; its number. */
static int write_node(struct writer *w, int from)
{
    const struct node *n = &w->p->nodes[from];
    if (w->is_full)
        return 0;
    int left = n->left >= 0 ? write_node(w, n->left) : n->p, right = n->right >= 0 ? write_node(w, n->right) : n->q;
    if (n->kind == JOYCE_NODE_STRING)
        left = write_text(w, n);
    if (w->node_count == ENTRIES)
        w->is_full = true;
    if (w->is_full)
        return 0;
    uint8_t entry[5] = {n->kind, (uint8_t)left, (uint8_t)right, (uint8_t)n->v, (uint8_t)(n->v >> 8)};
    memcpy(w->nodes[w->node_count], entry, sizeof entry);
    return w->node_count++;
}

static void write_statement(struct writer *w, const struct statement *s)
{
    int a = s->first >= 0 ? write_node(w, s->first) : s->a, b = s->second >= 0 ? write_node(w, s->second) : s->b;
    int first = w->argument_count;
    for (int k = 0; k < s->count; k++) {
        int node = write_node(w, s->arguments[k]);
        if (w->argument_count == ENTRIES)
            w->is_full = true;
        else
            w->arguments[w->argument_count++] = (uint8_t)node;
    }
    if (w->statement_count == ENTRIES)
        w->is_full = true;
    if (w->is_full)
        return;
    uint8_t entry[6] = {s->kind, (uint8_t)a, (uint8_t)b, (uint8_t)(is_call(s->kind) ? first : 0), (uint8_t)s->count, 0};
    memcpy(w->statements[w->statement_count++], entry, sizeof entry);
}

/* Links of arms and ends, by the nesting; an arm or end outside any opener keeps 0. */
static void write_links(struct writer *w)
{
    int openers[ENTRIES], arms[ENTRIES], depth = 0;
    for (int i = 0; i < w->statement_count; i++) {
        int kind = w->statements[i][0];
        bool ends_arm = depth > 0 && (kind == JOYCE_STATEMENT_ARM || kind == JOYCE_STATEMENT_END);
        if (ends_arm && arms[depth - 1] >= 0)
            w->statements[arms[depth - 1]][5] = (uint8_t)i;
        if (is_opener(kind)) {
            openers[depth] = i;
            arms[depth++] = -1;
        } else if (kind == JOYCE_STATEMENT_ARM && depth > 0)
            arms[depth - 1] = i;
        else if (kind == JOYCE_STATEMENT_END && depth > 0)
            w->statements[i][5] = (uint8_t)openers[--depth];
    }
}

static size_t put_section(uint8_t *to, const void *entries, int count, int size, int stride)
{
    *to = (uint8_t)count;
    for (int i = 0; i < count; i++)
        memcpy(to + 1 + i * size, (const uint8_t *)entries + i * stride, (size_t)size);
    return 1 + (size_t)(count * size);
}

/* The length of the table, or 0 where a section is too small. */
static size_t put_together(struct program *p, uint8_t *to)
{
    static struct writer w;
    w.p = p;
    w.node_count = w.argument_count = w.statement_count = w.text_length = 0;
    w.is_full = false;
    for (int i = 0, block = 0, at = 0; i < p->statement_count; i++) {
        write_statement(&w, &p->statements[i]);
        if (p->statements[i].kind == JOYCE_STATEMENT_BLOCK_END && block < p->counts[BLOCKS]) {
            p->bytes[BLOCKS][block++][5] = (uint8_t)at;
            at = i + 1;
        }
    }
    if (w.is_full)
        return 0;
    write_links(&w);
    size_t length = 0;
    for (int s = 0; s <= BLOCKS; s++)
        length += put_section(to + length, p->bytes[s], p->counts[s], sizes[s], 8);
    length += put_section(to + length, w.arguments, w.argument_count, 1, 1);
    length += put_section(to + length, w.nodes, w.node_count, 5, 5);
    length += put_section(to + length, w.statements, w.statement_count, 6, 6);
    if (w.text_length > 0 || p->has_characters)
        length += put_section(to + length, w.text, w.text_length, 1, 1);
    return length;
}

/* ---- changes of a program */

static uint16_t some_value(int type)
{
    static const int telling[] = {0, 1, 2, -1, 3, 7, 100, 101, 127, 128, 255, 256, 32767, -32768, -8192, -8190, -2, -4, -1000, -8194};
    if (type == JOYCE_BOOLEAN)
        return (uint16_t)below(2);
    if (type == JOYCE_CHARACTER)
        return (uint16_t)below(128);
    return (uint16_t)(one_in(8) ? (int)below(65536) : telling[below(sizeof telling / sizeof *telling)]);
}

/* change_program sees that there is room. */
static int add_node(struct program *p, struct node n)
{
    p->nodes[p->node_count] = n;
    return p->node_count++;
}

static int add_constant(struct program *p, int type)
{
    return add_node(p, (struct node){JOYCE_NODE_CONSTANT, (uint8_t)type, 0, some_value(type), -1, -1, 0});
}

/* Two letters, character 0 and 127 come often, so that strings are equal now and then. */
static uint8_t some_character(void)
{
    static const uint8_t telling[] = {'a', 'a', 'b', 0, 127};
    return one_in(200) ? 128 : one_in(8) ? (uint8_t)below(128) : telling[below(sizeof telling)];
}

/* A string constant; change_program sees that there is room. */
static int add_string(struct program *p, int length)
{
    int first = p->text_length;
    length = length < 0 ? 0 : length > ENTRIES ? ENTRIES : length;
    for (int i = 0; i < length; i++)
        p->text[p->text_length++] = some_character();
    return add_node(p, (struct node){JOYCE_NODE_STRING, 0, (uint8_t)length, 0, -1, -1, first});
}

/* The length of a string type; 0 for other types. */
static int string_length(const struct program *p, int type)
{
    if (type < JOYCE_DECLARED || type >= JOYCE_DECLARED + p->counts[TYPES])
        return 0;
    const uint8_t *t = p->bytes[TYPES][type - JOYCE_DECLARED];
    int low = t[3] + 256 * t[4], high = t[5] + 256 * t[6];
    return t[0] == JOYCE_TYPE_ARRAY && t[2] == JOYCE_CHARACTER && high >= low ? high - low + 1 : 0;
}

/* That of a constant, at times one less, and seldom any. */
static int some_length(int length)
{
    return one_in(10) ? 1 + (int)below(one_in(8) ? 255 : 12) : length - (int)below(2);
}

/* Some place that names a node, of a statement, an argument or a node; NULL where there is none. The user is the number of that node, or -1. */
static int *some_use(struct program *p, int *user)
{
    for (int tries = 0; tries < 20; tries++) {
        *user = one_in(2) && p->node_count > 0 ? (int)below((uint32_t)p->node_count) : -1;
        if (*user >= 0) {
            struct node *n = &p->nodes[*user];
            if (n->right >= 0 && one_in(2))
                return &n->right;
            if (n->left >= 0)
                return &n->left;
        } else if (p->statement_count > 0) {
            struct statement *s = &p->statements[below((uint32_t)p->statement_count)];
            if (s->count > 0 && one_in(2))
                return &s->arguments[below((uint32_t)s->count)];
            if (s->second >= 0 && one_in(2))
                return &s->second;
            if (s->first >= 0)
                return &s->first;
        }
    }
    return NULL;
}

static bool is_variable(const struct node *n)
{
    return n->kind >= JOYCE_NODE_WHOLE && n->kind <= JOYCE_NODE_ELEMENT;
}

static void change_node(struct program *p)
{
    struct node *n = &p->nodes[below((uint32_t)p->node_count)];
    if (n->kind == JOYCE_NODE_CONSTANT)
        n->v = some_value(n->p);
    else if (n->kind == JOYCE_NODE_WHOLE && p->counts[VARIABLES] > 0)
        n->p = (uint8_t)below((uint32_t)p->counts[VARIABLES]);
    else if (n->kind == JOYCE_NODE_FIELD)
        n->q = (uint8_t)below(4);
    else if (n->kind == JOYCE_NODE_UNARY)
        n->q = (uint8_t)(1 + below(3));
    else if (n->kind == JOYCE_NODE_BINARY && n->v <= JOYCE_BINARY_AT_LEAST)
        n->v = (uint16_t)(1 + below(6));
    else if (n->kind == JOYCE_NODE_BINARY && n->v <= JOYCE_BINARY_MOD)
        n->v = (uint16_t)(JOYCE_BINARY_ADD + below(5));
    else if (n->kind == JOYCE_NODE_BINARY)
        n->v = (uint16_t)(JOYCE_BINARY_AND + below(2));
    else if (n->kind == JOYCE_NODE_TRANSFER)
        n->q = (uint8_t)below(3);
    else if (n->kind == JOYCE_NODE_STRING && n->q > 0) {
        p->text[n->text + (int)below(n->q)] = some_character();
        n->q = (uint8_t)(n->q - (n->q > 1 && one_in(4)));
    }
}

/* An operand becomes another tree of the program, or is put under an operator. What a node of the table reaches, through nodes that were added
 * too, are nodes of the table before it, so that no tree contains itself. */
static void change_use(struct program *p)
{
    int user, *use = some_use(p, &user);
    if (!use || p->counts[NODES] == 0)
        return;
    int from = *use, other = (int)below((uint32_t)p->counts[NODES]);
    if (is_variable(&p->nodes[from]) || one_in(2)) {
        if (is_variable(&p->nodes[other]) == is_variable(&p->nodes[from]) && user < p->counts[NODES] && (user < 0 || other < user))
            *use = other;
        return;
    }
    struct node wrapped = {JOYCE_NODE_UNARY, 0, (uint8_t)(1 + below(3)), 0, from, -1, 0};
    if (p->nodes[from].kind == JOYCE_NODE_STRING && one_in(2))
        return; /* no operand of these */
    if (one_in(3))
        wrapped = (struct node){JOYCE_NODE_TRANSFER, 0, (uint8_t)below(3), 0, from, -1, 0};
    else if (one_in(2)) {
        int right = add_constant(p, one_in(3) ? (int)below(3) : JOYCE_INTEGER);
        wrapped = (struct node){JOYCE_NODE_BINARY, 0, 0, (uint16_t)(1 + below(13)), from, right, 0};
    }
    *use = add_node(p, wrapped);
}

/* Makes room for count statements before the one at. */
static bool open_gap(struct program *p, int at, int count)
{
    if (p->statement_count + count > ENTRIES)
        return false;
    memmove(&p->statements[at + count], &p->statements[at], sizeof p->statements[0] * (size_t)(p->statement_count - at));
    p->statement_count += count;
    return true;
}

/* A place where a statement may stand: not between an opener and its arm. */
static int some_gap(const struct program *p)
{
    int at = (int)below((uint32_t)p->statement_count);
    return at > 0 && is_opener(p->statements[at - 1].kind) ? at - 1 : at;
}

static void copy_statement(struct program *p)
{
    struct statement s = p->statements[below((uint32_t)p->statement_count)];
    int at = some_gap(p);
    if (!is_simple(s.kind))
        s = (struct statement){.kind = JOYCE_STATEMENT_SKIP, .first = -1, .second = -1};
    if (open_gap(p, at, 1))
        p->statements[at] = s;
}

static void remove_statement(struct program *p)
{
    int at = (int)below((uint32_t)p->statement_count);
    if (!is_simple(p->statements[at].kind))
        return;
    memmove(&p->statements[at], &p->statements[at + 1], sizeof p->statements[0] * (size_t)(p->statement_count - at - 1));
    p->statement_count--;
}

/* Two strings of one length, as a rule, are equal or not. */
static int add_comparison(struct program *p)
{
    int length = 1 + (int)below(one_in(8) ? 120 : 4), left = add_string(p, length);
    int right = add_string(p, length % 2 ? some_length(length + 1) : length);
    return add_node(p, (struct node){JOYCE_NODE_BINARY, 0, 0, (uint16_t)(1 + below(2)), left, right, 0});
}

static int some_guard(struct program *p)
{
    if (one_in(4))
        return add_comparison(p);
    for (int tries = 0; tries < 8 && one_in(2) == false; tries++) {
        int i = (int)below((uint32_t)p->node_count);
        if (p->nodes[i].kind == JOYCE_NODE_BINARY && p->nodes[i].v <= JOYCE_BINARY_AT_LEAST)
            return i;
    }
    return add_constant(p, JOYCE_BOOLEAN);
}

/* An opener with one arm around a simple statement. */
static void wrap_statement(struct program *p)
{
    int at = (int)below((uint32_t)p->statement_count);
    if (!is_simple(p->statements[at].kind) || !open_gap(p, at, 2))
        return;
    p->statements[at] = (struct statement){.kind = (uint8_t)(JOYCE_STATEMENT_IF + below(4)), .first = -1, .second = -1};
    p->statements[at + 1] = (struct statement){.kind = JOYCE_STATEMENT_ARM, .first = some_guard(p), .second = -1};
    if (open_gap(p, at + 3, 1))
        p->statements[at + 3] = (struct statement){.kind = JOYCE_STATEMENT_END, .first = -1, .second = -1};
}

/* One more arm before an end, or another opener. */
static void change_opener(struct program *p)
{
    int at = (int)below((uint32_t)p->statement_count);
    struct statement *s = &p->statements[at];
    if (is_opener(s->kind))
        s->kind = (uint8_t)(JOYCE_STATEMENT_IF + below(4));
    else if (s->kind == JOYCE_STATEMENT_END && open_gap(p, at, 2)) {
        p->statements[at] = (struct statement){.kind = JOYCE_STATEMENT_ARM, .first = some_guard(p), .second = -1};
        p->statements[at + 1] = (struct statement){.kind = JOYCE_STATEMENT_SKIP, .first = -1, .second = -1};
    }
}

static void change_type(struct program *p)
{
    if (p->counts[TYPES] > 0 && one_in(2)) {
        uint8_t *type = p->bytes[TYPES][below((uint32_t)p->counts[TYPES])];
        if (type[0] == JOYCE_TYPE_ARRAY)
            type[one_in(2) ? 3 : 5] += (uint8_t)(below(2) ? 1 : 255);
    } else if (p->counts[VARIABLES] > 0)
        p->bytes[VARIABLES][below((uint32_t)p->counts[VARIABLES])][1] = (uint8_t)below((uint32_t)(JOYCE_DECLARED + p->counts[TYPES]));
}

/* ---- new entries
 *
 * A type: kind, p, q, low and high of two bytes; a variable: mode, type; a block: kind, owner, first variable, parameters, variables, first
 * statement, space of two bytes. */

enum { OWNER = 1, FIRST, PARAMETERS, ALL, SPACE = 6 };

static bool is_full(const struct program *p, int section)
{
    return p->counts[section] == ENTRIES;
}

static uint8_t *add_entry(struct program *p, int section)
{
    uint8_t *entry = p->bytes[section][p->counts[section]++];
    memset(entry, 0, sizeof p->bytes[0][0]);
    return entry;
}

static int some_type(const struct program *p)
{
    int count = JOYCE_DECLARED + p->counts[TYPES];
    return (int)below((uint32_t)(one_in(2) || count > 255 ? JOYCE_DECLARED : count));
}

static void add_type(struct program *p)
{
    if (is_full(p, TYPES) || p->counts[FIELDS] > ENTRIES - 4)
        return;
    if (one_in(2)) {
        int fields = 1 + (int)below(3), first = p->counts[FIELDS];
        for (int i = 0; i < fields; i++)
            *add_entry(p, FIELDS) = (uint8_t)some_type(p);
        uint8_t *record = add_entry(p, TYPES);
        record[0] = JOYCE_TYPE_RECORD, record[1] = (uint8_t)first, record[2] = (uint8_t)fields;
    } else {
        int element = some_type(p), index = (int)below(3);
        uint8_t *array = add_entry(p, TYPES);
        array[0] = JOYCE_TYPE_ARRAY, array[1] = (uint8_t)index, array[2] = (uint8_t)element;
        if (one_in(3)) /* a string */
            array[1] = JOYCE_INTEGER, array[2] = JOYCE_CHARACTER, array[3] = 1, array[5] = (uint8_t)(2 + 2 * below(one_in(8) ? 100 : 4));
        else
            array[3] = (uint8_t)below(2), array[5] = (uint8_t)(index == JOYCE_BOOLEAN ? 1 : 1 + below(one_in(8) ? 120 : 4));
    }
}

/* One more variable of a block, after its others or after its parameters. */
static int add_variable(struct program *p, int block, int type, int mode)
{
    uint8_t *b = p->bytes[BLOCKS][block];
    int at = b[FIRST] + (mode == JOYCE_MODE_LOCAL ? b[ALL] : b[PARAMETERS]);
    if (is_full(p, VARIABLES) || at > p->counts[VARIABLES])
        return -1;
    memmove(p->bytes[VARIABLES][at + 1], p->bytes[VARIABLES][at], sizeof p->bytes[0][0] * (size_t)(p->counts[VARIABLES] - at));
    p->counts[VARIABLES]++;
    p->bytes[VARIABLES][at][0] = (uint8_t)mode, p->bytes[VARIABLES][at][1] = (uint8_t)type;
    for (int i = 0; i < p->node_count; i++)
        if (p->nodes[i].kind == JOYCE_NODE_WHOLE && p->nodes[i].p >= at)
            p->nodes[i].p++;
    b[ALL]++;
    b[PARAMETERS] += mode != JOYCE_MODE_LOCAL;
    for (int i = block + 1; i < p->counts[BLOCKS]; i++)
        p->bytes[BLOCKS][i][FIRST]++;
    return at;
}

static int add_block(struct program *p, int kind, int owner)
{
    int block = p->counts[BLOCKS];
    if (is_full(p, BLOCKS) || p->statement_count > ENTRIES - 2)
        return -1;
    uint8_t *b = add_entry(p, BLOCKS);
    b[0] = (uint8_t)kind, b[OWNER] = (uint8_t)(owner < 0 ? block : owner), b[FIRST] = (uint8_t)p->counts[VARIABLES];
    p->statements[p->statement_count++] = (struct statement){.kind = JOYCE_STATEMENT_SKIP, .first = -1, .second = -1};
    p->statements[p->statement_count++] = (struct statement){.kind = JOYCE_STATEMENT_BLOCK_END, .a = (uint8_t)block, .first = -1, .second = -1};
    return block;
}

/* A module with its type and a variable for it in some block; or a procedure, perhaps with a parameter. */
static void add_code(struct program *p)
{
    int some = (int)below((uint32_t)p->counts[BLOCKS]);
    if (one_in(2)) {
        int block = is_full(p, TYPES) ? -1 : add_block(p, JOYCE_BLOCK_MODULE, -1);
        if (block < 0)
            return;
        uint8_t *type = add_entry(p, TYPES);
        type[0] = JOYCE_TYPE_PROCESS, type[1] = (uint8_t)block;
        if (p->counts[TYPES] + JOYCE_DECLARED <= 256)
            add_variable(p, some, p->counts[TYPES] - 1 + JOYCE_DECLARED, JOYCE_MODE_LOCAL);
    } else {
        int block = add_block(p, JOYCE_BLOCK_PROCEDURE, p->bytes[BLOCKS][some][OWNER]);
        if (block >= 0 && one_in(2))
            add_variable(p, block, some_type(p), 1 + (int)below(2));
    }
}

/* A variable that a block may use, of a type if that is not below 0; -1 for none. */
static int some_variable(const struct program *p, int block, int type)
{
    for (int tries = 0; tries < 10; tries++) {
        const uint8_t *b = p->bytes[BLOCKS][one_in(2) ? block : p->bytes[BLOCKS][block][OWNER]];
        if (b[ALL] == 0)
            continue;
        int v = b[FIRST] + (int)below(b[ALL]);
        if (v < p->counts[VARIABLES] && (type < 0 || p->bytes[VARIABLES][v][1] == type))
            return v;
    }
    return -1;
}

static int add_whole(struct program *p, int v)
{
    return add_node(p, (struct node){JOYCE_NODE_WHOLE, (uint8_t)v, 0, 0, -1, -1, 0});
}

/* Goes down from a variable to a part that is no record and no array; its node, and its type. */
static int add_part(struct program *p, int v, int *type)
{
    int node = add_whole(p, v);
    *type = p->bytes[VARIABLES][v][1];
    for (int depth = 0; depth < DEPTH && *type >= JOYCE_DECLARED && *type < JOYCE_DECLARED + p->counts[TYPES]; depth++) {
        const uint8_t *t = p->bytes[TYPES][*type - JOYCE_DECLARED];
        int lower = -1;
        if (t[0] == JOYCE_TYPE_RECORD && t[2] > 0) {
            int place = (int)below(t[2]);
            lower = p->bytes[FIELDS][(t[1] + place) % ENTRIES][0];
            node = add_node(p, (struct node){JOYCE_NODE_FIELD, 0, (uint8_t)place, 0, node, -1, 0});
        } else if (t[0] == JOYCE_TYPE_ARRAY) {
            struct node index = {JOYCE_NODE_CONSTANT, t[1], 0, (uint16_t)(one_in(8) ? some_value(t[1]) : t[one_in(2) ? 3 : 5]), -1, -1, 0};
            int at = add_node(p, index);
            lower = t[2];
            node = add_node(p, (struct node){JOYCE_NODE_ELEMENT, 0, 0, 0, node, at, 0});
        }
        if (lower < 0 || lower >= *type)
            break;
        *type = lower;
    }
    return node;
}

static int add_value(struct program *p, int v)
{
    int whole = add_whole(p, v);
    return add_node(p, (struct node){JOYCE_NODE_VALUE, 0, 0, 0, whole, -1, 0});
}

/* An expression of a type: a constant, or the value of a variable; -1 for none. */
static int add_expression(struct program *p, int block, int type)
{
    int v = some_variable(p, block, type), length = string_length(p, type);
    if (type < JOYCE_DECLARED && (v < 0 || one_in(2)))
        return add_constant(p, type);
    if (length > 0 && (v < 0 || one_in(2)))
        return add_string(p, some_length(length));
    return v < 0 ? -1 : add_value(p, v);
}

/* A value argument: where its parameter is a string, a string of any length. */
static int add_argument(struct program *p, int block, int type)
{
    int v = some_variable(p, block, -1);
    if (string_length(p, type) == 0 || one_in(3))
        return add_expression(p, block, type);
    return v >= 0 && string_length(p, p->bytes[VARIABLES][v][1]) > 0 ? add_value(p, v) : add_string(p, some_length(1 + (int)below(12)));
}

static bool add_arguments(struct program *p, struct statement *s, int caller, int block)
{
    const uint8_t *b = p->bytes[BLOCKS][block];
    s->count = b[PARAMETERS] < ARGUMENTS_MAX ? b[PARAMETERS] : 0;
    for (int i = 0; i < s->count; i++) {
        const uint8_t *parameter = p->bytes[VARIABLES][(b[FIRST] + i) % ENTRIES];
        int v = parameter[0] == JOYCE_MODE_VAR ? some_variable(p, caller, parameter[1]) : -1;
        s->arguments[i] = v >= 0 ? add_whole(p, v) : add_argument(p, caller, parameter[1]);
        if (s->arguments[i] < 0)
            return false;
    }
    return true;
}

/* The space of a module: mostly room for a call or two, and seldom a wrong one. */
static void change_space(struct program *p)
{
    uint8_t *b = p->bytes[BLOCKS][p->bytes[BLOCKS][below((uint32_t)p->counts[BLOCKS])][OWNER]];
    uint32_t space = one_in(4) ? JOYCE_SPACE_MAX : one_in(3) ? 2 * below(JOYCE_SPACE_MAX / 2 + 1) : 2 * below(24);
    if (one_in(20))
        space += one_in(2) ? 1 : JOYCE_SPACE_MAX;
    b[SPACE] = (uint8_t)space, b[SPACE + 1] = (uint8_t)(space >> 8);
}

/* The first statement of a block, by the block ends before it. */
static int body_of(const struct program *p, int block)
{
    int at = 0;
    for (; block > 0 && at < p->statement_count; at++)
        block -= p->statements[at].kind == JOYCE_STATEMENT_BLOCK_END;
    return at;
}

/* A procedure is called at the beginning of its own body, or of another of its module, and mostly by its module too. */
static void add_recursion(struct program *p)
{
    int called = (int)below((uint32_t)p->counts[BLOCKS]), owner, from;
    for (int tries = 0; tries < 8 && p->bytes[BLOCKS][called][0] != JOYCE_BLOCK_PROCEDURE; tries++)
        called = (int)below((uint32_t)p->counts[BLOCKS]);
    owner = p->bytes[BLOCKS][called][OWNER];
    from = one_in(3) ? (int)below((uint32_t)p->counts[BLOCKS]) : called;
    if (p->bytes[BLOCKS][called][0] != JOYCE_BLOCK_PROCEDURE || owner >= p->counts[BLOCKS] || p->bytes[BLOCKS][from][OWNER] != owner)
        return;
    for (int i = 0; i < 2; i++, from = owner) {
        struct statement s = {.kind = JOYCE_STATEMENT_CALL, .a = (uint8_t)called, .first = -1, .second = -1};
        int at = body_of(p, from);
        if ((i > 0 && one_in(4)) || !add_arguments(p, &s, from, called) || !open_gap(p, at, 1))
            return;
        p->statements[at] = s;
    }
    if (one_in(2))
        change_space(p);
}

/* A statement of a kind that its variable's type suggests. */
static void add_statement(struct program *p)
{
    int at = some_gap(p), block = 0, type;
    for (int i = 0; i < at; i++)
        block += p->statements[i].kind == JOYCE_STATEMENT_BLOCK_END;
    if (block >= p->counts[BLOCKS])
        return;
    struct statement s = {.kind = JOYCE_STATEMENT_SKIP, .first = -1, .second = -1};
    int v = some_variable(p, block, -1), other = (int)below((uint32_t)p->counts[BLOCKS]);
    if (v < 0 || one_in(6)) {
        s.kind = JOYCE_STATEMENT_WRITE;
        s.first = add_constant(p, JOYCE_INTEGER), s.second = add_expression(p, block, JOYCE_INTEGER);
    } else if (one_in(6)) {
        s.kind = JOYCE_STATEMENT_CALL, s.a = (uint8_t)other;
        if (!add_arguments(p, &s, block, other))
            return;
    } else {
        s.first = add_part(p, v, &type);
        if (string_length(p, p->bytes[VARIABLES][v][1]) > 0 && one_in(2)) /* a string, and not its element */
            s.first = add_whole(p, v), type = p->bytes[VARIABLES][v][1];
        if (type < JOYCE_DECLARED || string_length(p, type) > 0 || one_in(4)) {
            s.kind = JOYCE_STATEMENT_ASSIGN, s.second = add_expression(p, block, type);
            if (s.second < 0)
                return;
        } else if (one_in(3))
            s.kind = JOYCE_STATEMENT_CREATE;
        else {
            bool is_start = one_in(2);
            int module = type - JOYCE_DECLARED < p->counts[TYPES] ? p->bytes[TYPES][type - JOYCE_DECLARED][1] : 0;
            for (int tries = 0; !is_start && tries < 8 && p->bytes[BLOCKS][other][OWNER] != module; tries++)
                other = (int)below((uint32_t)p->counts[BLOCKS]);
            s.kind = is_start ? JOYCE_STATEMENT_START : JOYCE_STATEMENT_PROCESS_CALL;
            s.b = (uint8_t)(is_start ? 0 : other);
            if (!add_arguments(p, &s, block, is_start ? module % ENTRIES : other))
                return;
        }
    }
    if (open_gap(p, at, 1))
        p->statements[at] = s;
}

static void change_program(struct program *p)
{
    uint32_t what = below(24);
    if (p->statement_count == 0 || p->counts[BLOCKS] == 0 || p->node_count > POOL - ROOM || p->text_length > TEXT_POOL - 20 * ENTRIES)
        return;
    if (one_in(20))
        p->has_characters = !p->has_characters;
    if (p->node_count == 0 || (what >= 18 && what < 22))
        add_statement(p);
    else if (what == 22)
        change_space(p);
    else if (what == 23)
        add_recursion(p);
    else if (what < 5)
        change_node(p);
    else if (what < 8)
        change_use(p);
    else if (what < 9)
        copy_statement(p);
    else if (what < 11)
        remove_statement(p);
    else if (what < 13)
        wrap_statement(p);
    else if (what < 14)
        change_opener(p);
    else if (what < 15)
        change_type(p);
    else if (what < 16)
        add_type(p);
    else if (what < 17)
        add_variable(p, (int)below((uint32_t)p->counts[BLOCKS]), some_type(p), JOYCE_MODE_LOCAL);
    else
        add_code(p);
}

/* ---- changes of single fields and bytes */

static size_t change_entries(uint8_t *table, size_t length, size_t room)
{
    size_t starts[SECTIONS];
    int counts[SECTIONS];
    if (find_sections(table, length, starts, counts) && !one_in(8)) {
        for (uint32_t changes = 1 + below(2); changes > 0; changes--) {
            int s = (int)below(SECTIONS);
            if (counts[s] == 0)
                continue;
            uint8_t *byte = &table[starts[s] + below((uint32_t)(counts[s] * sizes[s]))];
            *byte = (uint8_t)(below(3) ? *byte + below(3) - 1 : below(one_in(2) ? 16 : 256));
        }
        return length;
    }
    if (length > 0 && one_in(2))
        table[below((uint32_t)length)] = (uint8_t)below(256);
    if (length > 0 && one_in(3))
        length = below((uint32_t)length);
    if (length < room && one_in(3))
        table[length++] = (uint8_t)below(256);
    return length;
}

/* ---- tables */

static struct {
    uint8_t bytes[JOYCE_ACCEPTED_MAX];
    size_t length;
} kept[KEPT];
static uint32_t kept_count;

static void keep(const uint8_t *table, size_t length)
{
    if (length > JOYCE_ACCEPTED_MAX || joyce_check(table, length) != JOYCE_ACCEPTED)
        return;
    uint32_t at = kept_count < KEPT ? kept_count++ : below(KEPT);
    memcpy(kept[at].bytes, table, length);
    kept[at].length = length;
}

static size_t some_kept(uint8_t *table, size_t length, size_t room)
{
    static const uint8_t smallest[27] = {[3] = 1, [14] = 2, [21] = JOYCE_STATEMENT_BLOCK_END};
    uint32_t at = below(KEPT);
    if (at < kept_count && kept[at].length <= room) {
        memcpy(table, kept[at].bytes, kept[at].length);
        return kept[at].length;
    }
    if (kept_count > 0 || room < sizeof smallest)
        return length;
    memcpy(table, smallest, sizeof smallest);
    return sizeof smallest;
}

static size_t change_table(uint8_t *table, size_t length, size_t room)
{
    static struct program whole, changed;
    static uint8_t bytes[JOYCE_TABLE_MAX];
    if (joyce_check(table, length) != JOYCE_ACCEPTED) {
        for (int tries = 0; tries < 4 && below(8) && joyce_check(table, length) != JOYCE_ACCEPTED; tries++)
            length = some_kept(table, length, room);
    } else if (one_in(kept_count < KEPT ? 2 : 16))
        keep(table, length);
    if (one_in(6) || !take_apart(&whole, table, length))
        return change_entries(table, length, room);
    bool is_any = one_in(6);
    for (int tries = 0; tries < TRIES; tries++) {
        changed = whole;
        for (uint32_t changes = 1 + (one_in(3) ? below(4) : 0); changes > 0; changes--)
            change_program(&changed);
        size_t made = put_together(&changed, bytes);
        if (made > 0 && made <= room && (is_any || joyce_check(bytes, made) == JOYCE_ACCEPTED)) {
            memcpy(table, bytes, made);
            return made;
        }
    }
    return length;
}

/* ---- heads */

struct head {
    uint8_t flags, damages, damage[3 * 7], turns, schedule[255], looks[3];
};

static size_t read_head(struct head *h, const uint8_t *data, size_t size)
{
    memset(h, 0, sizeof *h);
    if (size < 2)
        return 0;
    h->flags = data[0];
    h->damages = data[1] % 8;
    size_t at = 2 + 3u * h->damages;
    if (size < at + 1)
        return 0;
    memcpy(h->damage, data + 2, 3u * h->damages);
    h->turns = data[at++];
    if (size < at + h->turns + 3)
        return 0;
    memcpy(h->schedule, data + at, h->turns);
    memcpy(h->looks, data + at + h->turns, 3);
    return at + h->turns + 3;
}

static size_t write_head(const struct head *h, uint8_t *to)
{
    size_t at = 0;
    to[at++] = h->flags;
    to[at++] = h->damages;
    memcpy(to + at, h->damage, 3u * h->damages);
    at += 3u * h->damages;
    to[at++] = h->turns;
    memcpy(to + at, h->schedule, h->turns);
    at += h->turns;
    memcpy(to + at, h->looks, 3);
    return at + 3;
}

static uint8_t some_process(void)
{
    return (uint8_t)(one_in(20) ? below(256) : 1 + below(one_in(2) ? 2 : 6));
}

/* Where damage tells most: the control records of the first processes, the beginning of their areas, and marks. */
static uint32_t telling_place(void)
{
    uint32_t process = below(below(3) ? 5 : 64);
    switch (below(5)) {
    case 0: return 35328 + 32 * process + below(below(2) ? 4 : 32); /* marks */
    case 1:
    case 2: return 32768 + 40 * process + below(22);
    default: return 512 * process + below(below(2) ? 24 : 512);
    }
}

static void change_schedule(struct head *h)
{
    uint32_t from = h->turns ? below(h->turns) : 0, count = 1 + below(one_in(4) ? 128 : 16);
    if (one_in(8))
        h->turns = (uint8_t)from;
    else if (one_in(3))
        for (uint32_t i = from; i < h->turns && i < from + count; i++)
            h->schedule[i] = some_process();
    else
        for (uint8_t process = some_process(); count > 0 && h->turns < 255; count--) {
            h->schedule[h->turns++] = process;
            if (!one_in(4))
                process = some_process();
        }
}

static void change_head(struct head *h)
{
    change_schedule(h);
    if (one_in(2))
        h->flags = (uint8_t)((below(12) ? 0 : below(8)) | (below(3) ? 0 : 8) | (below(2) ? 16 : 0) | (below(4) ? 0 : 32) | (below(2) ? 64 : 0) |
                             (below(4) ? 0 : 128));
    if (one_in(2)) {
        h->damages = (uint8_t)(below(4) ? 0 : 1 + below(4));
        for (int i = 0; i < h->damages; i++) {
            uint32_t place = telling_place();
            h->damage[3 * i] = (uint8_t)place;
            h->damage[3 * i + 1] = (uint8_t)(place >> 8);
            h->damage[3 * i + 2] = (uint8_t)(below(4) ? 1u << below(8) : below(256));
        }
    }
    if (one_in(4)) {
        h->looks[0] = (uint8_t)(below(10) ? 1 + below(3) : below(256));
        h->looks[1] = (uint8_t)(below(10) ? below(8) : below(256));
        h->looks[2] = (uint8_t)(below(2) ? 0 : below(below(2) ? 6 : 256));
    }
}

/* ---- inputs */

size_t LLVMFuzzerCustomMutator(uint8_t *data, size_t size, size_t max_size, unsigned int seed)
{
    static uint8_t table[65536];
    struct head h;
    random_state = seed * 0x9E3779B97F4A7C15u + 1979;
    below(1);
    size_t at = read_head(&h, data, size), length = size - at;
    if (max_size < HEAD_MAX || length > sizeof table)
        return size;
    memcpy(table, data + at, length);
    bool is_table = below(3) > 0;
    if (!is_table || h.turns == 0 || one_in(4))
        change_head(&h);
    if (is_table)
        length = change_table(table, length, max_size - HEAD_MAX < sizeof table ? max_size - HEAD_MAX : sizeof table);
    at = write_head(&h, data);
    if (at + length > max_size)
        length = max_size - at;
    memcpy(data + at, table, length);
    return at + length;
}

/* The head of one and the table of the other. */
size_t LLVMFuzzerCustomCrossOver(const uint8_t *one, size_t one_size, const uint8_t *two, size_t two_size, uint8_t *out, size_t max_size,
                                 unsigned int seed)
{
    struct head first, second;
    (void)seed;
    size_t from = read_head(&second, two, two_size), length = two_size - from;
    read_head(&first, one, one_size);
    keep(two + from, length);
    if (max_size < HEAD_MAX + length)
        return 0;
    size_t at = write_head(&first, out);
    memcpy(out + at, two + from, length);
    return at + length;
}
