/* Programs made at random of assignments of several words between places of one type: parts of variables, var parameters, value parameters and
 * locals, of the program and of three processes, two of them of one module. There is nothing to expect but what the plain interpreter does: after
 * each step all bytes are compared. Now and then the variables are set to new numbers, so that they do not all become alike.
 *
 *     process m(other: n)                       process n
 *       procedure ..                              procedure ..
 *     begin                                     begin
 *       x := 1; y := 2; tick := 1;                x := 1; y := 2; tick := 1;
 *       cycle tick > 0 do tick := 0; .. end       cycle tick > 0 do tick := 0; .. end
 *     end                                       end
 *
 *     begin x := 1; y := 2; create .. start ..; cycle true do .. end end
 *
 * A procedure calls only later ones, and those of the modules after its own, and some set tick. So calls end. */
#include "both.h"
#include "builder.h"

#include <stdio.h>
#include <string.h>

enum { PROGRAMS = 50 / SHARE, STEPS = 2000, POKE_EVERY = 60 };
enum { TYPES = 24, VARIABLES = 128, BLOCKS = 16, DEPTH = 5, CANDIDATES = 400, NODES = 205 };
enum { BLOCK_PROGRAM, BLOCK_M, BLOCK_N, MODULES };
enum { VALUE, LOCAL, VAR }; /* modes */
enum { SIMPLE, RECORD, ARRAY, REFERENCE };

static struct builder b;
static struct both run;

/* ---- types */

struct type {
    int kind, words, count, low, first_part; /* of a record, its fields are parts from first_part on; of an array, its element is one part */
    bool is_string;
};

static struct type types[TYPES];
static int type_count, parts[256], part_count;

static int keep_type(int number, struct type t)
{
    types[number] = t;
    type_count = number + 1;
    return number;
}

static void add_array(int index, int element, int low, int count)
{
    struct type t = {ARRAY, count * types[element].words, count, low, part_count, element == CHARACTER};
    parts[part_count++] = element;
    keep_type(array_type(&b, index, element, low, low + count - 1), t);
}

static void add_record(int most)
{
    int f[3], count = 1 + below(3), words = 0;
    for (int i = 0; i < count; i++) {
        f[i] = below(3) ? below(type_count) : INTEGER;
        if (words + types[f[i]].words > most)
            f[i] = INTEGER;
        words += types[f[i]].words;
    }
    struct type t = {RECORD, words, count, 0, part_count, false};
    for (int i = 0; i < count; i++)
        parts[part_count++] = f[i];
    keep_type(count == 1 ? record_type(&b, 1, f[0]) : count == 2 ? record_type(&b, 2, f[0], f[1]) : record_type(&b, 3, f[0], f[1], f[2]), t);
}

/* Two strings that match, a few arrays and records; none has more words than that. */
static void add_types(int most)
{
    type_count = part_count = 0;
    for (int i = INTEGER; i <= CHARACTER; i++)
        keep_type(i, (struct type){SIMPLE, 1, 0, 0, 0, false});
    int length = 2 + 2 * below(3), n = 6 + below(6);
    add_array(INTEGER, CHARACTER, 1, length);
    add_array(INTEGER, CHARACTER, 1, length);
    add_array(INTEGER, INTEGER, 1, 2 + below(most > 60 ? 40 : 6));
    for (int i = 0; i < n; i++) {
        int element = below(type_count), count = element == CHARACTER ? 2 : 2 + below(3);
        if (types[element].words * count <= most && below(2))
            add_array(INTEGER, element, 1, count);
        else
            add_record(most);
    }
}

static bool match(int one, int other)
{
    return one == other || (types[one].is_string && types[other].is_string && types[one].words == types[other].words);
}

/* ---- variables and blocks */

struct variable { int block, type, mode; };

static struct variable variables[VARIABLES];
static int variable_count;

struct block {
    int owner, parameters[4], parameter_count; /* their variables */
};

static struct block blocks[BLOCKS];
static int block_count;

/* of the program and the modules */
static int x_of[MODULES], y_of[MODULES], tick_of[MODULES], references[MODULES][3], reference_count[MODULES], words_of[MODULES];
static int reference_module[MODULES][3];

static int keep_variable(int number, int block, int type, int mode)
{
    variables[number] = (struct variable){block, type, mode};
    variable_count = number + 1;
    return number;
}

static int add_plain(int block, int type)
{
    return keep_variable(add_local(&b, block, type), block, type, LOCAL);
}

/* Variables of several words while there is room. */
static void add_module_variables(int module, int room)
{
    x_of[module] = add_plain(module, INTEGER);
    y_of[module] = add_plain(module, INTEGER);
    tick_of[module] = add_plain(module, INTEGER);
    words_of[module] = 0;
    for (int tries = 0; tries < 12; tries++) {
        int type = 3 + below(type_count - 3);
        if (words_of[module] + types[type].words > room)
            continue;
        add_plain(module, type);
        words_of[module] += types[type].words;
    }
}

static void add_procedure_variables(int p, int most)
{
    struct block *k = &blocks[p];
    int vars = below(4), values = below(2);
    for (int i = 0; i < vars; i++) {
        int type = 3 + below(type_count - 3);
        k->parameters[k->parameter_count++] = keep_variable(add_var_parameter(&b, p, type), p, type, VAR);
    }
    for (int i = 0; i < values; i++) {
        int type = 3 + below(type_count - 3);
        if (types[type].words <= most)
            k->parameters[k->parameter_count++] = keep_variable(add_value_parameter(&b, p, type), p, type, VALUE);
    }
    for (int i = 0; i < 2; i++) {
        int type = 3 + below(type_count - 3);
        if (types[type].words <= most)
            add_plain(p, type);
    }
}

/* ---- places in the scope of a block */

struct candidate { int variable, depth, path[DEPTH], type; }; /* a path: the place of a field; nothing for an element */

static struct candidate candidates[CANDIDATES];
static int candidate_count;

static void walk(struct candidate c, int wanted, bool is_exact)
{
    const struct type *t = &types[c.type];
    if ((is_exact ? c.type == wanted : match(c.type, wanted)) && candidate_count < CANDIDATES)
        candidates[candidate_count++] = c;
    if (c.depth == DEPTH || t->kind == SIMPLE || t->kind == REFERENCE)
        return;
    struct candidate d = c;
    d.depth++;
    for (int i = 0; i < (t->kind == RECORD ? t->count : 1); i++) {
        d.path[c.depth] = i;
        d.type = parts[t->first_part + i];
        walk(d, wanted, is_exact);
    }
}

/* What is wished of a place: anything, or a part of that variable, or of a variable of the block's own. */
enum { ANY = -1, OWN = -2 };

/* A place that a block can name, of a type; as it is wished, where there is one. */
static bool find_place(int block, int wanted, bool is_exact, int wish, struct candidate *found)
{
    candidate_count = 0;
    for (int v = 0; v < variable_count; v++)
        if (variables[v].block == block || variables[v].block == blocks[block].owner)
            walk((struct candidate){v, 0, {0}, variables[v].type}, wanted, is_exact);
    for (int tries = 0; tries < 10 && candidate_count > 0; tries++) {
        *found = candidates[below(candidate_count)];
        if (wish == ANY || found->variable == wish || (wish == OWN && variables[found->variable].block == block))
            break;
    }
    return candidate_count > 0;
}

/* The two are the same whatever the indices are. */
static bool is_same(const struct candidate *c, const struct candidate *d)
{
    int type = variables[c->variable].type;
    bool is_same = c->variable == d->variable && c->depth == d->depth;
    for (int i = 0; is_same && i < c->depth; i++) {
        is_same = types[type].kind == RECORD && c->path[i] == d->path[i];
        type = parts[types[type].first_part + c->path[i]];
    }
    return is_same;
}

/* Its node. An index is a number, or x or y, which are 1 or 2. */
static int node_of(int block, const struct candidate *c)
{
    int node = whole(&b, c->variable), type = variables[c->variable].type, module = blocks[block].owner;
    for (int i = 0; i < c->depth; i++) {
        const struct type *t = &types[type];
        type = parts[t->first_part + c->path[i]];
        if (t->kind == RECORD)
            node = field(&b, node, c->path[i]);
        else if (below(2))
            node = element(&b, node, integer(&b, t->low + below(t->count)));
        else
            node = element(&b, node, value(&b, below(2) ? x_of[module] : y_of[module]));
    }
    return node;
}

/* ---- statements */

static int node_limit;

/* A body has a share of the nodes. */
static void give_nodes(int share)
{
    node_limit = b.node_count + share < NODES ? b.node_count + share : NODES;
}

static bool is_full(void)
{
    return b.node_count > node_limit;
}

static void put_number(int variable, int number)
{
    put_assign(&b, whole(&b, variable), integer(&b, number));
}

/* to := from, of one type; half of them inside one variable, if there is another place in it, and few that are no change whatever the indices are */
static void put_copy(int block)
{
    struct candidate to, from;
    for (int tries = 0; tries < 20; tries++) {
        int type = 3 + below(type_count - 3);
        if (types[type].words < 2 || !find_place(block, type, false, below(3) ? OWN : ANY, &to))
            continue;
        find_place(block, to.type, false, below(2) ? to.variable : ANY, &from);
        if (is_same(&to, &from) && below(10))
            continue;
        int left = node_of(block, &to);
        put_assign(&b, left, value_at(&b, node_of(block, &from)));
        return;
    }
}

/* x := 3 - x */
static void put_index(int block)
{
    int v = below(2) ? x_of[blocks[block].owner] : y_of[blocks[block].owner];
    put_assign(&b, whole(&b, v), binary(&b, '-', integer(&b, 3), value(&b, v)));
}

/* A word of some variable, to a device word, so that the pages show it too. */
static void put_any_write(int block)
{
    struct candidate c;
    if (!find_place(block, INTEGER, true, OWN, &c))
        return;
    int address = integer(&b, -2 * (1 + below(100)));
    put_write(&b, address, value_at(&b, node_of(block, &c)));
}

/* A procedure that the block may call: a later one of its module, or one of a module that a reference of its module leads to. */
static bool find_procedure(int block, int *procedure, int *reference)
{
    int module = blocks[block].owner;
    *procedure = MODULES + below(block_count - MODULES);
    *reference = -1;
    if (blocks[*procedure].owner == module)
        return block < MODULES || *procedure > block;
    for (int tries = 0; tries < 4 && reference_count[module] > 0; tries++) {
        int k = below(reference_count[module]);
        if (reference_module[module][k] == blocks[*procedure].owner) {
            *reference = references[module][k];
            return true;
        }
    }
    return false;
}

static bool put_any_call(int block)
{
    int p, r, n[4];
    struct candidate c[4];
    if (!find_procedure(block, &p, &r))
        return false;
    const struct block *k = &blocks[p];
    for (int i = 0; i < k->parameter_count; i++) {
        const struct variable *v = &variables[k->parameters[i]];
        if (!find_place(block, v->type, v->mode == VAR, i > 0 && below(2) ? c[0].variable : ANY, &c[i]))
            return false;
    }
    for (int i = 0; i < k->parameter_count; i++) {
        n[i] = node_of(block, &c[i]);
        if (variables[k->parameters[i]].mode == VALUE)
            n[i] = value_at(&b, n[i]);
    }
    switch (k->parameter_count + (r < 0 ? 0 : 5)) {
    case 0: put_call(&b, p, 0); break;
    case 1: put_call(&b, p, 1, n[0]); break;
    case 2: put_call(&b, p, 2, n[0], n[1]); break;
    case 3: put_call(&b, p, 3, n[0], n[1], n[2]); break;
    case 4: put_call(&b, p, 4, n[0], n[1], n[2], n[3]); break;
    case 5: put_process_call(&b, whole(&b, r), p, 0); break;
    case 6: put_process_call(&b, whole(&b, r), p, 1, n[0]); break;
    case 7: put_process_call(&b, whole(&b, r), p, 2, n[0], n[1]); break;
    case 8: put_process_call(&b, whole(&b, r), p, 3, n[0], n[1], n[2]); break;
    default: put_process_call(&b, whole(&b, r), p, 4, n[0], n[1], n[2], n[3]); break;
    }
    return true;
}

static void put_statements(int block, int count, int calls)
{
    put_skip(&b);
    for (int i = 0; i < count && !is_full(); i++)
        put_copy(block);
    for (int i = 0; i < 20 && calls > 0 && !is_full(); i++)
        calls -= put_any_call(block);
    if (!is_full())
        put_index(block);
    if (!is_full() && below(2))
        put_any_write(block);
    for (int i = 0; i < count / 2 && !is_full(); i++)
        put_copy(block);
}

static void put_beginning(int module)
{
    put_number(x_of[module], 1);
    put_number(y_of[module], 2);
}

static void write_module(int module)
{
    give_nodes(40);
    begin_body(&b, module);
    put_beginning(module);
    put_number(tick_of[module], 1);
    put_cycle(&b);
    put_arm(&b, binary(&b, '>', value(&b, tick_of[module]), integer(&b, 0)));
    put_number(tick_of[module], 0);
    put_statements(module, 3, 1);
    put_end(&b);
    end_body(&b);
}

static void write_procedure(int p)
{
    give_nodes(16);
    begin_body(&b, p);
    if (blocks[p].owner != BLOCK_PROGRAM && below(3) == 0)
        put_number(tick_of[blocks[p].owner], 1);
    put_statements(p, 2, below(2));
    end_body(&b);
}

/* Process 2 is of n, and 3 and 4 are of m. */
static void write_program(void)
{
    const int *r = references[BLOCK_PROGRAM];
    give_nodes(90);
    begin_body(&b, BLOCK_PROGRAM);
    put_beginning(BLOCK_PROGRAM);
    put_create(&b, whole(&b, r[0]));
    put_start(&b, whole(&b, r[0]), 0);
    for (int i = 1; i < 3; i++) {
        put_create(&b, whole(&b, r[i]));
        put_start(&b, whole(&b, r[i]), 1, value(&b, r[0]));
    }
    put_cycle(&b);
    put_arm(&b, boolean(&b, true));
    put_statements(BLOCK_PROGRAM, 4, 4);
    put_end(&b);
    end_body(&b);
}

static size_t build(bool is_wide, uint8_t *table, size_t room)
{
    int most = is_wide ? 200 : 40;
    start_table(&b);
    variable_count = block_count = 0;
    memset(blocks, 0, sizeof blocks);
    add_types(most);
    int m_type = keep_type(process_type(&b, BLOCK_M), (struct type){REFERENCE, 1, 0, 0, 0, false});
    int n_type = keep_type(process_type(&b, BLOCK_N), (struct type){REFERENCE, 1, 0, 0, 0, false});
    type_count -= 2; /* not among those that are drawn */
    add_program(&b);
    add_module(&b);
    add_module(&b);
    for (int i = 0; i < MODULES; i++)
        blocks[i].owner = i;
    for (int i = 0; i < 3; i++) {
        references[BLOCK_PROGRAM][i] = add_plain(BLOCK_PROGRAM, i == 0 ? n_type : m_type);
        reference_module[BLOCK_PROGRAM][i] = i == 0 ? BLOCK_N : BLOCK_M;
    }
    add_module_variables(BLOCK_PROGRAM, is_wide ? 200 : 110);
    references[BLOCK_M][0] = keep_variable(add_value_parameter(&b, BLOCK_M, n_type), BLOCK_M, n_type, VALUE);
    reference_module[BLOCK_M][0] = BLOCK_N;
    reference_count[BLOCK_PROGRAM] = 3;
    reference_count[BLOCK_M] = 1;
    reference_count[BLOCK_N] = 0;
    add_module_variables(BLOCK_M, is_wide ? 200 : 110);
    add_module_variables(BLOCK_N, is_wide ? 200 : 110);
    for (int i = 0; i < 6; i++) {
        int p = add_procedure(&b, i / 2);
        blocks[p].owner = i / 2;
        add_procedure_variables(p, is_wide ? 6 : 12);
    }
    block_count = MODULES + 6;
    write_program();
    write_module(BLOCK_M);
    write_module(BLOCK_N);
    for (int p = MODULES; p < block_count; p++)
        write_procedure(p);
    return finish_table(&b, table, room);
}

/* ---- runs */

/* Sets the words of a value: any integers, characters and booleans. */
static int poke_value(int process, int at, int type)
{
    const struct type *t = &types[type];
    if (t->kind == SIMPLE)
        poke_both(&run, process, at++, type == INTEGER ? below(65536) : below(type == BOOLEAN ? 2 : 128));
    for (int i = 0; i < t->count; i++)
        at = poke_value(process, at, parts[t->first_part + (t->kind == RECORD ? i : 0)]);
    return at;
}

/* Sets the variables of several words of a process. */
static void poke_process(int process)
{
    int module = process == 1 ? BLOCK_PROGRAM : process == 2 ? BLOCK_N : BLOCK_M, at = 0;
    for (int v = 0; v < variable_count; v++)
        if (variables[v].block == module) {
            if (types[variables[v].type].kind == RECORD || types[variables[v].type].kind == ARRAY)
                poke_value(process, at, variables[v].type);
            at += types[variables[v].type].words;
        }
}

/* Who advances often goes on. Single steps, but in every fourth program calls of up to 20. */
static bool run_program(bool is_cut, bool *has_failed)
{
    uint8_t schedule[20];
    int process = 1;
    for (int step = 0, n; step < STEPS; step += n) {
        n = is_cut ? 1 : 1 + below(20);
        for (int i = 0; i < n; i++) {
            if (step == 0 || run.answer != ADVANCED || below(4) == 0)
                process = below(100) ? 1 + below(4) : below(256);
            schedule[i] = (uint8_t)process;
        }
        if (!run_both(&run, schedule, (size_t)n))
            return false;
        *has_failed = run.answer >= FAILED;
        if (*has_failed)
            return true;
        if (step % POKE_EVERY < n)
            poke_process(1 + below(created(&run)));
    }
    return true;
}

static int test(const char *name, bool is_wide, uint64_t first_seed)
{
    static uint8_t table[7913];
    int failed = 0;
    unsigned long steps = run.steps, copies = run.copies;
    bool is_ok = true;
    for (int i = 0; is_ok && i < PROGRAMS; i++) {
        bool has_failed = false;
        seed = first_seed + 1000003u * (uint64_t)i;
        size_t length = build(is_wide, table, sizeof table);
        is_ok = length != 0 || bad("%s", builder_mistake(&b));
        is_ok = is_ok && begin_both(&run, table, length) && run_program(i % 4 != 0, &has_failed);
        failed += has_failed;
        if (!is_ok) {
            char what[sizeof why];
            memcpy(what, why, sizeof why);
            bad("program %d: %.300s", i, what);
        }
    }
    steps = run.steps - steps;
    copies = run.copies - copies;
    if (is_ok && (failed > PROGRAMS / 4 || copies < steps / 20))
        is_ok = bad("the programs are no use: %d of %d fail, %lu of %lu steps copy", failed, PROGRAMS, copies, steps);
    return report(name, is_ok, "%d programs, %d of which fail; %lu steps, %lu copies among those made one by one", PROGRAMS, failed, steps, copies);
}

int random_tests(void)
{
    return test("random", false, 20260102) + test("random_wide", true, 73020099);
}
