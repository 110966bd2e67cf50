/* Locals and var parameters of recursive calls: each call has a record of its own, and its var parameters lead to those of the calls outside it.
 *
 *     procedure turn(n: integer; var a: cell; var b: cell)
 *       var c: cell
 *     begin
 *       c := a; a := b; b := c;
 *       if n > 0 do turn(n - 1, b, c); a := c else true do skip end;
 *       c := b; b := b
 *     end
 *
 * What is expected is found by the same procedure in C, whose assignments are memmove. */
#include "both.h"
#include "builder.h"

#include <stdio.h>
#include <string.h>

enum { WIDEST = 64, CELLS = 3, MOST = CELLS * WIDEST };

static struct builder b;
static struct both run;

static void put_copy(int to, int from)
{
    put_assign(&b, whole(&b, to), value(&b, from));
}

/* The procedure, of the program or of a module. */
static int add_turn(int owner, int cell)
{
    int turn = add_procedure(&b, owner);
    int n = add_value_parameter(&b, turn, INTEGER), x = add_var_parameter(&b, turn, cell), y = add_var_parameter(&b, turn, cell);
    int z = add_local(&b, turn, cell);
    begin_body(&b, turn);
    put_copy(z, x);
    put_copy(x, y);
    put_copy(y, z);
    put_if(&b);
    put_arm(&b, binary(&b, '>', value(&b, n), integer(&b, 0)));
    put_call(&b, turn, 3, binary(&b, '-', value(&b, n), integer(&b, 1)), whole(&b, y), whole(&b, z));
    put_copy(x, z);
    put_arm(&b, boolean(&b, true));
    put_skip(&b);
    put_end(&b);
    put_copy(z, y);
    put_copy(y, y);
    end_body(&b);
    return turn;
}

static void turn(int n, int *x, int *y, size_t words)
{
    int z[WIDEST];
    size_t size = words * sizeof *z;
    memmove(z, x, size);
    memmove(x, y, size);
    memmove(y, z, size);
    if (n > 0) {
        turn(n - 1, y, z, words);
        memmove(x, z, size);
    }
    memmove(z, y, size);
    memmove(y, y, size);
}

/* A program with an array of cells, which turns two of them, here or in the procedure of another process. */
static size_t build(int width, int depth, int first, int second, bool is_far, uint8_t *table, size_t room)
{
    start_table(&b);
    int rest = array_type(&b, INTEGER, INTEGER, 1, width - 1), cell = record_type(&b, 2, rest, INTEGER);
    int row = array_type(&b, INTEGER, cell, 1, CELLS), module_type = process_type(&b, 1);
    int program = add_program(&b), r = add_local(&b, program, row), m = add_local(&b, program, module_type);
    int module = add_module(&b);
    set_space(&b, program, 510); /* the area decides alone */
    int t = add_turn(is_far ? module : program, cell);
    begin_body(&b, module);
    put_skip(&b);
    end_body(&b);
    begin_body(&b, program);
    put_create(&b, whole(&b, m));
    put_start(&b, whole(&b, m), 0);
    int n = integer(&b, depth), x = element(&b, whole(&b, r), integer(&b, first)), y = element(&b, whole(&b, r), integer(&b, second));
    if (is_far)
        put_process_call(&b, whole(&b, m), t, 3, n, x, y);
    else
        put_call(&b, t, 3, n, x, y);
    end_body(&b);
    return finish_table(&b, table, room);
}

static bool run_to_end(void)
{
    for (int i = 0; i < 1000; i++) {
        if (!step_both(&run, 1))
            return false;
        if (run.answer == HAS_ENDED)
            return true;
        if (run.answer >= FAILED)
            return bad("the run fails with %d", run.answer);
        if (run.answer == WAITS && !step_both(&run, 2))
            return false;
    }
    return bad("the run does not end");
}

static bool run_turn(int width, int depth, int first, int second, bool is_far)
{
    static uint8_t table[7913];
    int words[MOST];
    size_t length = build(width, depth, first, second, is_far, table, sizeof table);
    if (length == 0)
        return bad("%s", builder_mistake(&b));
    if (!begin_both(&run, table, length))
        return false;
    for (int i = 0; i < CELLS * width; i++)
        poke_both(&run, 1, i, words[i] = 100 + 7 * i);
    if (!run_to_end())
        return false;
    turn(depth, words + (first - 1) * width, words + (second - 1) * width, (size_t)width);
    for (int i = 0; i < CELLS * width; i++)
        if (!look_is(&run, 1, 0, i, words[i]))
            return false;
    return true;
}

static int test(const char *name, bool is_far)
{
    static const struct { int width, depth; } sizes[] = {{2, 0}, {2, 1}, {2, 12}, {3, 5}, {3, 10}, {20, 2}, {20, 4}, {50, 0}};
    int programs = 0;
    bool is_ok = true;
    unsigned long steps = run.steps, looks = run.looks;
    for (size_t i = 0; i < sizeof sizes / sizeof *sizes; i++)
        for (int pair = 0; is_ok && pair < CELLS * CELLS; pair++, programs++) {
            is_ok = run_turn(sizes[i].width, sizes[i].depth, 1 + pair / CELLS, 1 + pair % CELLS, is_far);
            if (!is_ok) {
                char what[sizeof why];
                memcpy(what, why, sizeof why);
                bad("%d words, depth %d, cells %d and %d: %.300s", sizes[i].width, sizes[i].depth, 1 + pair / CELLS, 1 + pair % CELLS, what);
            }
        }
    return report(name, is_ok, "%d programs, %lu steps, %lu words looked at", programs, run.steps - steps, run.looks - looks);
}

int frame_tests(void)
{
    return test("recursive", false) + test("recursive_far", true);
}
