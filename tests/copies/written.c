/* One assignment a program: every pair of places of a few shapes, reached in every way. The words of the variables are set to different numbers
 * first; afterwards they are looked at, of long variables a part. What is expected is found with memmove on a copy of those numbers. */
#include "both.h"
#include "builder.h"

#include <stdio.h>
#include <string.h>

static struct builder b;
static struct both run;

/* ---- places */

enum { MOST_WORDS = 200, ROOTS = 3, PATH = 3, PLACES = 12, LOW = 5 };

/* From a variable, its root, by fields ('f') and elements ('e'). */
struct place {
    int root, type, offset, depth;
    struct { char kind; int at; } path[PATH];
};

struct shape {
    int roots, type[ROOTS], words[ROOTS];
    int far_type[ROOTS]; /* of the other process's variable, where the two are in different processes */
    bool is_text;        /* all words are characters, and all places are strings of one length */
    bool has_elements;
    int count;
    struct place place[PLACES];
    int place_words[PLACES];
};

static struct place root_place(const struct shape *s, int root)
{
    return (struct place){.root = root, .type = s->type[root]};
}

static struct place part(struct place p, char kind, int at, int type, int offset)
{
    p.path[p.depth].kind = kind;
    p.path[p.depth++].at = at;
    p.type = type;
    p.offset += offset;
    return p;
}

static int add_root(struct shape *s, int type, int words)
{
    s->type[s->roots] = s->far_type[s->roots] = type;
    s->words[s->roots] = words;
    return s->roots++;
}

static void add_place(struct shape *s, struct place p, int words)
{
    s->place[s->count] = p;
    s->place_words[s->count++] = words;
}

static int fit(int most, int width)
{
    return most < MOST_WORDS / width ? most : MOST_WORDS / width;
}

/* ---- shapes */

/* A record of so many words. */
static int cell(int width)
{
    if (width == 2)
        return record_type(&b, 2, INTEGER, INTEGER);
    int rest = array_type(&b, INTEGER, INTEGER, 1, width - 1);
    return record_type(&b, 2, INTEGER, rest);
}

static void wholes(struct shape *s, int width)
{
    int type = cell(width);
    for (int i = 0; i < fit(3, width); i++)
        add_place(s, root_place(s, add_root(s, type, width)), width);
}

static void elements(struct shape *s, int width)
{
    int type = cell(width), k = fit(4, width);
    int a = add_root(s, array_type(&b, INTEGER, type, LOW, LOW + k - 1), k * width);
    s->has_elements = true;
    for (int i = 0; i < k; i++)
        add_place(s, part(root_place(s, a), 'e', LOW + i, type, i * width), width);
}

static void fields(struct shape *s, int width)
{
    int type = cell(width), k = fit(3, width);
    int record = k == 1 ? record_type(&b, 1, type) : k == 2 ? record_type(&b, 2, type, type) : record_type(&b, 3, type, type, type);
    int r = add_root(s, record, k * width);
    for (int i = 0; i < k; i++)
        add_place(s, part(root_place(s, r), 'f', i, type, i * width), width);
}

/* r.f.g, where f is all of r and g all of f; s is a variable like g, and q one like f */
static void nested(struct shape *s, int width, char kind, int at, int middle, int type)
{
    int k = fit(3, width);
    int r = add_root(s, record_type(&b, 1, middle), width);
    struct place f = part(root_place(s, r), 'f', 0, middle, 0);
    add_place(s, root_place(s, r), width);
    add_place(s, f, width);
    add_place(s, part(f, kind, at, type, 0), width);
    if (k > 1)
        add_place(s, root_place(s, add_root(s, type, width)), width);
    if (k > 2) {
        int q = add_root(s, middle, width);
        add_place(s, root_place(s, q), width);
        add_place(s, part(root_place(s, q), kind, at, type, 0), width);
    }
}

static void only_field(struct shape *s, int width)
{
    int type = cell(width);
    nested(s, width, 'f', 0, record_type(&b, 1, type), type);
}

static void only_element(struct shape *s, int width)
{
    int type = cell(width);
    s->has_elements = true;
    nested(s, width, 'e', LOW, array_type(&b, INTEGER, type, LOW, LOW), type);
}

/* Records of two records, in an array, and a variable behind it. */
static void parts(struct shape *s, int width)
{
    int k = fit(2, 2 * width);
    if (k == 0)
        return;
    int type = cell(width), pair = record_type(&b, 2, type, type);
    int a = add_root(s, array_type(&b, INTEGER, pair, LOW, LOW + k - 1), 2 * k * width);
    s->has_elements = true;
    for (int i = 0; i < k; i++) {
        struct place p = part(root_place(s, a), 'e', LOW + i, pair, 2 * i * width);
        add_place(s, p, 2 * width);
        add_place(s, part(p, 'f', 0, type, 0), width);
        add_place(s, part(p, 'f', 1, type, width), width);
    }
    if ((2 * k + 1) * width <= MOST_WORDS)
        add_place(s, root_place(s, add_root(s, type, width)), width);
}

/* Two types of strings, which match where they have one length. */
static void strings(struct shape *s, int width)
{
    if (width % 2 != 0)
        return;
    int one = array_type(&b, INTEGER, CHARACTER, 1, width);
    int other = width == 2 ? array_type(&b, BOOLEAN, CHARACTER, 0, 1) : array_type(&b, INTEGER, CHARACTER, -7, width - 8);
    s->is_text = true;
    for (int i = 0; i < fit(2, width); i++) {
        int root = add_root(s, i ? other : one, width);
        s->far_type[root] = i ? one : other;
        add_place(s, root_place(s, root), width);
    }
    if (fit(4, width) == 4) {
        int r = add_root(s, record_type(&b, 2, other, one), 2 * width);
        add_place(s, part(root_place(s, r), 'f', 0, other, 0), width);
        add_place(s, part(root_place(s, r), 'f', 1, one, width), width);
    }
}

static const struct {
    const char *name;
    void (*make)(struct shape *, int width);
} shapes[] = {{"wholes", wholes}, {"elements", elements}, {"fields", fields}, {"only_field", only_field}, {"only_element", only_element},
              {"parts", parts}, {"strings", strings}};

static const int widths[] = {2, 3, 20, 100, 200};

static bool match(const struct shape *s, int i, int j)
{
    return s->is_text || s->place[i].type == s->place[j].type;
}

/* The pair with that number of places that match. */
static bool find_pair(const struct shape *s, int number, int *to, int *from)
{
    for (*to = 0; *to < s->count; ++*to)
        for (*from = 0; *from < s->count; ++*from)
            if (match(s, *to, *from) && number-- == 0)
                return true;
    return false;
}

/* ---- programs */

/* Where the variables are, and who makes the assignment. */
enum home {
    PROGRAM,    /* the program's variables, by the program */
    MODULE,     /* a process's, by a procedure that the program calls */
    BODY,       /* a process's, by its own body */
    LOCALS,     /* locals of a procedure: they are copied from the program's variables first, and back at last */
    VALUES,     /* value parameters of a procedure, and back at last */
    FAR_LOCALS, /* locals of a process's procedure, in the caller's area, copied from the process's variables and back */
    ACROSS,     /* one is the program's and one a process's */
    HOMES
};
static const char *const home_names[] = {"program", "module", "body", "locals", "values", "far_locals", "across"};

/* How the two are reached. */
enum access {
    DIRECT,       /* to := from */
    BOTH_VAR,     /* both are var parameters of a procedure */
    ROOTS_VAR,    /* var parameters are the variables that they are parts of */
    TO_ROOT_VAR,  /* the one, and the other a part */
    FROM_ROOT_VAR,
    DEEP,         /* var parameters of recursive calls */
    SERVED,       /* var parameters of a procedure of another process */
    RELAYED,      /* which another has called with its own var parameters */
    TO_VAR,       /* one is a var parameter, and the other is reached by its own name */
    FROM_VAR,
    ACCESSES
};
static const char *const access_names[] = {"direct", "both_var", "roots_var", "to_root_var", "from_root_var", "deep", "served", "relayed", "to_var",
                                           "from_var"};

enum { HERE, THERE, SIDES };                          /* the program's variables, and the module's */
enum { MODULE_BLOCK = 1, SERVER_BLOCK, RELAY_BLOCK }; /* after the program */
enum { SERVER = 2, RELAY, WORKER, SHIFT = 3, DEPTH = 2 };
static const int process_of[SIDES] = {1, WORKER}, first_word[SIDES] = {0, 2};

struct program {
    const struct shape *shape;
    struct place to, from;
    enum home home;
    enum access access;
    bool is_shifted;           /* an index is a variable and a number added */
    int roots[SIDES][ROOTS], index[SIDES], server[SIDES], relay[SIDES], module; /* variables */
    int owner, side;           /* the block whose variables the assignment sees */
    int worker, locals[ROOTS]; /* the procedure that makes it, and its variables */
    int helper;                /* the procedure that is called for it */
};

static bool has_roots(const struct program *g, int side)
{
    bool is_there = g->home == MODULE || g->home == BODY || g->home == FAR_LOCALS;
    return g->home == ACROSS || (side == THERE) == is_there;
}

/* The node of a place, from the variable that is its root on. */
static int node_of(const struct program *g, const struct place *p, int variable)
{
    int node = whole(&b, variable);
    for (int i = 0; i < p->depth; i++) {
        int at = p->path[i].at;
        if (p->path[i].kind == 'f')
            node = field(&b, node, at);
        else if (g->is_shifted)
            node = element(&b, node, binary(&b, '+', value(&b, g->index[g->side]), integer(&b, at - SHIFT)));
        else
            node = element(&b, node, integer(&b, at));
    }
    return node;
}

/* The relay's procedure calls the server's, with its own var parameters. */
static void add_relay(struct program *g, int known)
{
    int served = add_procedure(&b, SERVER_BLOCK);
    int to = add_var_parameter(&b, served, g->to.type), from = add_var_parameter(&b, served, g->from.type);
    begin_body(&b, served);
    put_assign(&b, whole(&b, to), value(&b, from));
    end_body(&b);
    g->helper = add_procedure(&b, RELAY_BLOCK);
    to = add_var_parameter(&b, g->helper, g->to.type);
    from = add_var_parameter(&b, g->helper, g->from.type);
    begin_body(&b, g->helper);
    put_process_call(&b, whole(&b, known), served, 2, whole(&b, to), whole(&b, from));
    end_body(&b);
}

static void add_skip(int block)
{
    begin_body(&b, block);
    put_skip(&b);
    end_body(&b);
}

static void add_variables(struct program *g)
{
    const struct shape *s = g->shape;
    int module_type = process_type(&b, MODULE_BLOCK), server_type = process_type(&b, SERVER_BLOCK), relay_type = process_type(&b, RELAY_BLOCK);
    int program = add_program(&b), module = add_module(&b), server = add_module(&b), relay = add_module(&b);
    set_space(&b, program, 510); /* the area decides alone */
    set_space(&b, module, 510);
    for (int i = 0; has_roots(g, HERE) && i < s->roots; i++)
        g->roots[HERE][i] = add_local(&b, program, s->type[i]);
    g->index[HERE] = add_local(&b, program, INTEGER);
    g->server[HERE] = add_local(&b, program, server_type);
    g->relay[HERE] = add_local(&b, program, relay_type);
    g->module = add_local(&b, program, module_type);

    g->server[THERE] = add_value_parameter(&b, module, server_type);
    g->relay[THERE] = add_value_parameter(&b, module, relay_type);
    for (int i = 0; has_roots(g, THERE) && i < s->roots; i++)
        g->roots[THERE][i] = add_local(&b, module, g->home == ACROSS ? s->far_type[i] : s->type[i]);
    g->index[THERE] = add_local(&b, module, INTEGER);

    /* the server has no variables; the relay knows the server */
    int known = add_value_parameter(&b, relay, server_type);
    add_skip(server);
    add_skip(relay);
    g->side = has_roots(g, THERE) ? THERE : HERE;
    g->owner = g->side == THERE ? module : program;
    if (g->access == RELAYED)
        add_relay(g, known);
}

static int root_type(const struct program *g, const struct place *p)
{
    return g->shape->type[p->root];
}

/* The procedure that the assignment is left to, where it is: its var parameters, and its body. */
static void add_helper(struct program *g)
{
    const struct place *to = &g->to, *from = &g->from;
    if (g->access == DIRECT || g->access == RELAYED)
        return;
    int h = g->helper = add_procedure(&b, g->access == SERVED ? SERVER_BLOCK : g->owner);
    bool is_deep = g->access == DEEP;
    int n = is_deep ? add_value_parameter(&b, h, INTEGER) : 0;
    int x = -1, y = -1;
    if (g->access != FROM_VAR)
        x = add_var_parameter(&b, h, g->access == ROOTS_VAR || g->access == TO_ROOT_VAR ? root_type(g, to) : to->type);
    if (g->access != TO_VAR)
        y = add_var_parameter(&b, h, g->access == ROOTS_VAR || g->access == FROM_ROOT_VAR ? root_type(g, from) : from->type);
    if (is_deep)
        add_local(&b, h, INTEGER); /* so that frames have words of their own */

    begin_body(&b, h);
    if (is_deep) {
        put_if(&b);
        put_arm(&b, binary(&b, '>', value(&b, n), integer(&b, 0)));
        put_call(&b, h, 3, binary(&b, '-', value(&b, n), integer(&b, 1)), whole(&b, x), whole(&b, y));
        put_arm(&b, boolean(&b, true));
    }
    int left = g->access == FROM_VAR ? node_of(g, to, g->roots[g->side][to->root])
        : g->access == ROOTS_VAR || g->access == TO_ROOT_VAR ? node_of(g, to, x) : whole(&b, x);
    int right = g->access == TO_VAR ? node_of(g, from, g->roots[g->side][from->root])
        : g->access == ROOTS_VAR || g->access == FROM_ROOT_VAR ? node_of(g, from, y) : whole(&b, y);
    put_assign(&b, left, value_at(&b, right));
    if (is_deep)
        put_end(&b);
    end_body(&b);
}

/* The statement that makes the assignment, where the variables are named so. */
static void put_access(const struct program *g, const int variables[ROOTS])
{
    const struct place *to = &g->to, *from = &g->from;
    int to_root = variables[to->root], from_root = variables[from->root];
    switch (g->access) {
    case DIRECT: put_assign(&b, node_of(g, to, to_root), value_at(&b, node_of(g, from, from_root))); break;
    case BOTH_VAR: put_call(&b, g->helper, 2, node_of(g, to, to_root), node_of(g, from, from_root)); break;
    case ROOTS_VAR: put_call(&b, g->helper, 2, whole(&b, to_root), whole(&b, from_root)); break;
    case TO_ROOT_VAR: put_call(&b, g->helper, 2, whole(&b, to_root), node_of(g, from, from_root)); break;
    case FROM_ROOT_VAR: put_call(&b, g->helper, 2, node_of(g, to, to_root), whole(&b, from_root)); break;
    case DEEP: put_call(&b, g->helper, 3, integer(&b, DEPTH), node_of(g, to, to_root), node_of(g, from, from_root)); break;
    case SERVED:
        put_process_call(&b, whole(&b, g->server[g->side]), g->helper, 2, node_of(g, to, to_root), node_of(g, from, from_root));
        break;
    case RELAYED:
        put_process_call(&b, whole(&b, g->relay[g->side]), g->helper, 2, node_of(g, to, to_root), node_of(g, from, from_root));
        break;
    case TO_VAR: put_call(&b, g->helper, 1, node_of(g, to, to_root)); break;
    default: put_call(&b, g->helper, 1, node_of(g, from, from_root)); break;
    }
}

static void copy_back(const struct program *g)
{
    for (int i = 0; i < g->shape->roots; i++)
        put_assign(&b, whole(&b, g->roots[g->side][i]), value(&b, g->locals[i]));
}

/* The procedure that makes the assignment, where it is one. */
static void add_worker(struct program *g)
{
    const struct shape *s = g->shape;
    bool has_locals = g->home == LOCALS || g->home == FAR_LOCALS;
    if (!has_locals && g->home != VALUES && g->home != MODULE)
        return;
    g->worker = add_procedure(&b, g->owner);
    for (int i = 0; g->home != MODULE && i < s->roots; i++)
        g->locals[i] = has_locals ? add_local(&b, g->worker, s->type[i]) : add_value_parameter(&b, g->worker, s->type[i]);
    begin_body(&b, g->worker);
    for (int i = 0; has_locals && i < s->roots; i++)
        put_assign(&b, whole(&b, g->locals[i]), value(&b, g->roots[g->side][i]));
    put_access(g, g->home == MODULE ? g->roots[g->side] : g->locals);
    if (g->home != MODULE)
        copy_back(g);
    end_body(&b);
}

static void put_values_call(const struct program *g)
{
    const int *r = g->roots[HERE];
    switch (g->shape->roots) {
    case 1: put_call(&b, g->worker, 1, value(&b, r[0])); break;
    case 2: put_call(&b, g->worker, 2, value(&b, r[0]), value(&b, r[1])); break;
    default: put_call(&b, g->worker, 3, value(&b, r[0]), value(&b, r[1]), value(&b, r[2])); break;
    }
}

/* What the program does once all processes are started. */
static void put_action(struct program *g)
{
    const struct place *mine = g->access == TO_VAR ? &g->to : &g->from;
    switch (g->home) {
    case PROGRAM: put_access(g, g->roots[HERE]); break;
    case MODULE:
    case FAR_LOCALS: put_process_call(&b, whole(&b, g->module), g->worker, 0); break;
    case BODY: put_skip(&b); break;
    case LOCALS: put_call(&b, g->worker, 0); break;
    case VALUES: put_values_call(g); break;
    default: /* the index here is the program's */
        g->side = HERE;
        put_process_call(&b, whole(&b, g->module), g->helper, 1, node_of(g, mine, g->roots[HERE][mine->root]));
        break;
    }
}

static size_t build(struct program *g, uint8_t *table, size_t room)
{
    add_variables(g);
    add_helper(g);
    add_worker(g);
    begin_body(&b, MODULE_BLOCK);
    if (g->home == BODY)
        put_access(g, g->roots[THERE]);
    else
        put_skip(&b);
    end_body(&b);
    begin_body(&b, 0);
    put_create(&b, whole(&b, g->server[HERE]));
    put_start(&b, whole(&b, g->server[HERE]), 0);
    put_create(&b, whole(&b, g->relay[HERE]));
    put_start(&b, whole(&b, g->relay[HERE]), 1, value(&b, g->server[HERE]));
    put_create(&b, whole(&b, g->module));
    put_start(&b, whole(&b, g->module), 2, value(&b, g->server[HERE]), value(&b, g->relay[HERE]));
    put_action(g);
    end_body(&b);
    return finish_table(&b, table, room);
}

/* ---- a run */

static int expected[SIDES][MOST_WORDS];

static int words_of(const struct shape *s)
{
    int words = 0;
    for (int i = 0; i < s->roots; i++)
        words += s->words[i];
    return words;
}

static int offset_of(const struct shape *s, const struct place *p)
{
    int at = p->offset;
    for (int i = 0; i < p->root; i++)
        at += s->words[i];
    return at;
}

/* Sets the variables of a side, which stand one after the other, and then the index. */
static void fill(const struct program *g, int side)
{
    int n = has_roots(g, side) ? words_of(g->shape) : 0, p = process_of[side], at = first_word[side];
    for (int i = 0; i < n; i++) {
        expected[side][i] = g->shape->is_text ? (7 * i + 31 * side + 1) % 127 : 60000 * side + 1000 + 3 * i;
        poke_both(&run, p, at + i, expected[side][i]);
    }
    poke_both(&run, p, at + n, SHIFT);
}

static void expect(const struct program *g, int words)
{
    int side = has_roots(g, THERE) ? THERE : HERE;
    int to_side = g->home == ACROSS && g->access == TO_VAR ? HERE : side, from_side = g->home == ACROSS && g->access == FROM_VAR ? HERE : side;
    memmove(expected[to_side] + offset_of(g->shape, &g->to), expected[from_side] + offset_of(g->shape, &g->from), (size_t)words * sizeof(int));
}

/* All words of a side's variables; of long ones every ninth, and those at the borders of the two places. */
static bool look_at_all(const struct program *g, int side, int words)
{
    int borders[] = {offset_of(g->shape, &g->to), offset_of(g->shape, &g->to) + words, offset_of(g->shape, &g->from),
                     offset_of(g->shape, &g->from) + words};
    for (int i = 0, at = 0; i < g->shape->roots; i++)
        for (int k = 0; k < g->shape->words[i]; k++, at++) {
            bool is_asked = g->shape->words[i] <= 60 || k % 9 == 0;
            for (int j = 0; j < 4; j++)
                is_asked = is_asked || (at >= borders[j] - 2 && at <= borders[j] + 1);
            if (is_asked && !look_is(&run, process_of[side], g->roots[side][i], k, expected[side][at]))
                return false;
        }
    return true;
}

/* The processes are created in one call, alike in all programs. Then the program goes on step by step while it can; where it waits, each of the
 * others takes a turn. */
static bool run_to_end(const struct program *g)
{
    static const uint8_t creation[] = {1, 1, 1, 1, 1};
    bool has_worker_ended = false;
    if (!run_both(&run, creation, sizeof creation))
        return false;
    if (created(&run) != WORKER)
        return bad("the processes are not created");
    fill(g, THERE);
    for (int turns = 0; turns < 200; turns++) {
        if (!step_both(&run, 1))
            return false;
        if (run.answer >= FAILED)
            return bad("the run fails with %d", run.answer);
        if (run.answer == HAS_ENDED && has_worker_ended)
            return true;
        if (run.answer == ADVANCED)
            continue;
        for (int p = SERVER; p <= WORKER; p++)
            if (!step_both(&run, p))
                return false;
        has_worker_ended = run.answer == HAS_ENDED;
    }
    return bad("the run does not end");
}

static bool run_program(struct program *g, int words)
{
    static uint8_t table[7913];
    size_t length = build(g, table, sizeof table);
    unsigned long copies = run.copies;
    if (length == 0)
        return bad("%s", builder_mistake(&b));
    if (!begin_both(&run, table, length))
        return false;
    memset(expected, 0, sizeof expected);
    fill(g, HERE);
    if (!run_to_end(g))
        return false;
    if (run.copies == copies)
        return bad("nothing was copied");
    expect(g, words);
    for (int side = 0; side < SIDES; side++)
        if (has_roots(g, side) && !look_at_all(g, side, words))
            return false;
    return true;
}

/* Two copies of the variables in the program's area, and the calls. */
static bool has_room(enum home home, const struct shape *s)
{
    return (home != LOCALS && home != VALUES) || 2 * words_of(s) + 50 <= AREA;
}

/* Says in which program it was. */
static bool in_program(const char *shape, int width, int pair, bool is_shifted)
{
    char what[sizeof why];
    memcpy(what, why, sizeof why);
    return bad("%s of %d words, pair %d%s: %.300s", shape, width, pair, is_shifted ? ", the index a variable" : "", what);
}

/* In every other program an index is a variable with a number added, and a constant in the rest. */
static bool run_pairs(enum home home, enum access access, int kind, int width, int *programs)
{
    for (int pair = 0, to, from;; pair++) {
        struct shape s = {0};
        start_table(&b);
        shapes[kind].make(&s, width);
        if (!find_pair(&s, pair, &to, &from) || !has_room(home, &s))
            return true;
        if ((pair + (int)access + width) % SHARE != 0)
            continue;
        bool is_shifted = s.has_elements && (pair + (int)access) % 2 == 0;
        struct program g = {.shape = &s, .to = s.place[to], .from = s.place[from], .home = home, .access = access, .is_shifted = is_shifted};
        if (!run_program(&g, s.place_words[to]))
            return in_program(shapes[kind].name, width, pair, is_shifted);
        ++*programs;
    }
}

static int test(enum home home, enum access access)
{
    char name[100];
    int programs = 0;
    bool is_ok = true;
    unsigned long steps = run.steps, looks = run.looks;
    for (size_t kind = 0; kind < sizeof shapes / sizeof *shapes; kind++)
        for (size_t w = 0; w < sizeof widths / sizeof *widths; w++)
            is_ok = is_ok && run_pairs(home, access, (int)kind, widths[w], &programs);
    snprintf(name, sizeof name, "%s/%s", home_names[home], access_names[access]);
    return report(name, is_ok, "%d programs, %lu steps, %lu words looked at", programs, run.steps - steps, run.looks - looks);
}

/* Locals have no name in another procedure. Between two processes one of the two is a var parameter. */
static bool is_possible(enum home home, enum access access)
{
    bool is_one_var = access == TO_VAR || access == FROM_VAR;
    if (home == LOCALS || home == VALUES || home == FAR_LOCALS)
        return !is_one_var;
    return home != ACROSS || is_one_var;
}

int written_tests(void)
{
    int failures = 0;
    for (int home = 0; home < HOMES; home++)
        for (int access = 0; access < ACCESSES; access++)
            if (is_possible((enum home)home, (enum access)access))
                failures += test((enum home)home, (enum access)access);
    return failures;
}
