/* States that no run reaches: a process at work on what it does not hold, var parameters bound to strangers' variables, calls that work on the wrong
 * process. Each is a state of a run in which a word or two are changed, by docs/STATE.md, so that one fact of the state rule breaks and all else is
 * met. The library and the plain interpreter of bench/ both refuse it with 10; where they take a state they leave the same. */
#include "builder.h"
#include "plain.h"
#include "support.h"
#include "tests.h"

#include <string.h>

/* ---- the program
 *
 *     process store(next: store)
 *       var n: integer
 *       procedure add(var x: integer) begin x := x + n end
 *       procedure pass(k: integer; var x: integer)
 *       begin when k > 0: next.pass(k - 1, x) | k = 0: add(x) end end
 *     begin n := 5; cycle n = 0: next.pass(0, n) end end
 *
 *     var first, second, third, other: store; y: integer
 *     procedure bump(var z: integer) begin z := z + 1 end
 *     begin
 *       create first; create second; create third; create other;
 *       start first(first); start second(first); start third(second); start other(first);
 *       y := 2; bump(y); third.pass(2, y)
 *     end. */

enum { MAIN, BUMP, STORE, ADD, PASS };                                   /* blocks */
enum { PROGRAM = 1, FIRST, SECOND, THIRD, OTHER };                       /* processes */
enum { NEXT, N };                                                        /* words of a store's area */
enum { Y = 4, FRAME = 5 };                                               /* of the program's: y, and the frame of its outermost call */
enum { STATUS, MODULE, STATEMENT, FRAME_AT, TOP, WORKS, HOLDER, DEPTH, NUMBER = 10 }; /* words of a record */
enum { CREATED = 1, STARTED, ENDED };                                    /* status */

static struct builder b;
static struct run_state r, forged;
static uint8_t bytes[JOYCE_ACCEPTED_MAX];

static void write_store(int next, int n, int x, int k, int passed)
{
    begin_body(&b, STORE);
    put_assign(&b, whole(&b, n), integer(&b, 5));
    put_cycle(&b);
    put_arm(&b, binary(&b, '=', value(&b, n), integer(&b, 0)));
    put_process_call(&b, whole(&b, next), PASS, 2, integer(&b, 0), whole(&b, n));
    put_end(&b);
    end_body(&b);
    begin_body(&b, ADD);
    put_assign(&b, whole(&b, x), binary(&b, '+', value(&b, x), value(&b, n)));
    end_body(&b);
    begin_body(&b, PASS);
    put_when(&b);
    put_arm(&b, binary(&b, '>', value(&b, k), integer(&b, 0)));
    put_process_call(&b, whole(&b, next), PASS, 2, binary(&b, '-', value(&b, k), integer(&b, 1)), whole(&b, passed));
    put_arm(&b, binary(&b, '=', value(&b, k), integer(&b, 0)));
    put_call(&b, ADD, 1, whole(&b, passed));
    put_end(&b);
    end_body(&b);
}

static void write_main(const int store[4], int y, int z)
{
    static const int given[] = {0, 0, 1, 0};
    begin_body(&b, MAIN);
    for (int i = 0; i < 4; i++)
        put_create(&b, whole(&b, store[i]));
    for (int i = 0; i < 4; i++)
        put_start(&b, whole(&b, store[i]), 1, value(&b, store[given[i]]));
    put_assign(&b, whole(&b, y), integer(&b, 2));
    put_call(&b, BUMP, 1, whole(&b, y));
    put_process_call(&b, whole(&b, store[2]), PASS, 2, integer(&b, 2), whole(&b, y));
    end_body(&b);
    begin_body(&b, BUMP);
    put_assign(&b, whole(&b, z), binary(&b, '+', value(&b, z), integer(&b, 1)));
    end_body(&b);
}

static size_t write_program(void)
{
    int store[4], type;
    start_table(&b);
    type = process_type(&b, STORE);
    add_program(&b);
    add_procedure(&b, MAIN);
    add_module(&b);
    add_procedure(&b, STORE);
    add_procedure(&b, STORE);
    for (int i = 0; i < 4; i++)
        store[i] = add_local(&b, MAIN, type);
    int y = add_local(&b, MAIN, INTEGER), z = add_var_parameter(&b, BUMP, INTEGER);
    int next = add_value_parameter(&b, STORE, type), n = add_local(&b, STORE, INTEGER);
    int x = add_var_parameter(&b, ADD, INTEGER);
    int k = add_value_parameter(&b, PASS, INTEGER), passed = add_var_parameter(&b, PASS, INTEGER);
    write_main(store, y, z);
    write_store(next, n, x, k, passed);
    return finish_table(&b, bytes, sizeof bytes);
}

/* ---- its states */

/* How many steps process 1 has made. The stores stand at their cycle, and have given up their variables. */
enum moment {
    OUTSIDE = 8,  /* before y := 2 */
    BUMPING = 10, /* in bump */
    PASSING = 13, /* in third.pass, at its when */
    ADDING = 19   /* in add, called in first.pass, called in second.pass, called in third.pass */
};

/* Words of the frames of process 1: each frame has four links, then its variables. */
enum {
    BUMP_Z = FRAME + 4,
    PASS_X = FRAME + 5,                            /* of third.pass: k stands before it */
    SECOND_X = PASS_X + 6, FIRST_X = SECOND_X + 6, /* of second.pass and first.pass, a frame further each */
    ADD_X = FIRST_X + 5, ADD_WORKS = ADD_X - 2     /* of add: x, and what first.pass works on */
};

static bool turn(uint8_t process, unsigned answer)
{
    uint8_t given;
    if (!run_turns(&r, &process, 1, &given))
        return false;
    return given == answer || bad("process %u answered %u, not %u", process, given, answer);
}

static bool reach(enum moment moment)
{
    struct table t = {bytes, write_program(), JOYCE_ACCEPTED};
    uint32_t verdict = joyce_check(t.bytes, t.length);
    if (verdict != JOYCE_ACCEPTED)
        return bad("the verdict is %u", (unsigned)verdict);
    if (!begin(&r, t))
        return false;
    for (int i = 0; i < (int)moment; i++) {
        if (!turn(PROGRAM, JOYCE_DONE))
            return false;
        for (uint8_t p = FIRST; i == OUTSIDE - 1 && p <= OTHER; p++)
            if (!turn(p, JOYCE_DONE) || !turn(p, JOYCE_WAITS))
                return false;
    }
    forged = r;
    return true;
}

static size_t record(int process, int word)
{
    return 16384 + 20 * (size_t)(process - 1) + (size_t)word;
}

static size_t area(int process, int word)
{
    return 256 * (size_t)(process - 1) + (size_t)word;
}

static unsigned word_at(size_t i)
{
    return forged.state[2 * i] + 256u * forged.state[2 * i + 1];
}

static void change(size_t i, size_t word)
{
    forged.state[2 * i] = (uint8_t)word;
    forged.state[2 * i + 1] = (uint8_t)(word >> 8);
}

/* ---- what becomes of them */

enum { TURNS = 40 };

static uint32_t plain_result(uint8_t *state, uint8_t *page, const uint8_t *turns, uint8_t *answers)
{
    return plain_run(r.table.bytes, r.table.length, state, JOYCE_STATE_SIZE, page, JOYCE_PAGE_SIZE, turns, TURNS, answers, TURNS);
}

static bool is_forged(const char *what)
{
    static uint8_t state[JOYCE_STATE_SIZE], page[JOYCE_PAGE_SIZE];
    static const uint8_t turns[TURNS] = {1};
    uint8_t answers[TURNS] = {0};
    struct lent lent = lend(&forged, turns, sizeof turns, answers);
    memcpy(state, forged.state, sizeof state);
    if (!is_refused(RUN, &lent, JOYCE_STATE) || !is_refused(LOOK, &lent, JOYCE_STATE))
        return bad("taken: %s", what);
    if (plain_result(state, page, turns, answers) != JOYCE_STATE
        || plain_look(r.table.bytes, r.table.length, state, sizeof state, 1, 0, 0) != JOYCE_STATE)
        return bad("taken by the plain interpreter: %s", what);
    forged = r;
    return true;
}

/* It is run, and the plain interpreter leaves the same. */
static bool is_taken(const char *what)
{
    static uint8_t state[JOYCE_STATE_SIZE], page[JOYCE_PAGE_SIZE];
    uint8_t turns[TURNS], answers[TURNS] = {0}, given[TURNS] = {0};
    for (int i = 0; i < TURNS; i++)
        turns[i] = (uint8_t)(PROGRAM + i % OTHER);
    struct lent lent = lend(&forged, turns, sizeof turns, given);
    memcpy(state, forged.state, sizeof state);
    memcpy(page, forged.page, sizeof page);
    uint32_t looked = call(LOOK, &lent, true);
    if ((looked < JOYCE_WORD && looked != JOYCE_UNSET_WORD) || call(RUN, &lent, true) != JOYCE_OK)
        return bad("refused: %s", what);
    if (plain_result(state, page, turns, answers) != JOYCE_OK)
        return bad("refused by the plain interpreter: %s", what);
    if (memcmp(left(STATE), state, sizeof state) || memcmp(left(PAGE), page, sizeof page) || memcmp(left(ANSWERS), answers, TURNS))
        return bad("the plain interpreter leaves another: %s", what);
    forged = r;
    return true;
}

/* ---- a process holds what it works on, at every level of its calls */

static bool has_holders(enum moment moment, const char *what, int process, bool is_fine)
{
    bool is_ok = reach(moment);
    int holder = (int)word_at(record(process, HOLDER));
    for (int p = 0; is_ok && p <= OTHER; p++) {
        change(record(process, HOLDER), (size_t)p);
        is_ok = p == holder || is_fine ? is_taken(what) : is_forged(what);
    }
    return is_ok;
}

static bool holding(void)
{
    return has_holders(OUTSIDE, "its own block", PROGRAM, false) && has_holders(BUMPING, "a local call", PROGRAM, false)
        && has_holders(PASSING, "outside a process call that stands at a when", PROGRAM, false)
        && has_holders(ADDING, "its own block, far outside", PROGRAM, false) && has_holders(ADDING, "the outermost call", THIRD, false)
        && has_holders(ADDING, "a call between", SECOND, false) && has_holders(ADDING, "the innermost calls", FIRST, false);
}

/* At a when or cycle it may have given up what it works on there, and another may hold it. */
static bool holding_given_up(void)
{
    return has_holders(OUTSIDE, "at a cycle of its own block", FIRST, true) && has_holders(PASSING, "at a when of a process call", THIRD, true)
        && has_holders(ADDING, "on which nobody works but at a cycle", OTHER, true);
}

/* A store that stands at its first statement, and not at its cycle. */
static bool holding_elsewhere(void)
{
    if (!reach(OUTSIDE))
        return false;
    unsigned cycle = word_at(record(FIRST, STATEMENT));
    for (size_t at = cycle - 1; at <= cycle + 2; at++) { /* n := 5, the cycle, its arm, the call */
        change(record(FIRST, STATEMENT), at);
        if (!(at == cycle ? is_taken("at its cycle") : is_forged("it stands at no cycle and holds nothing")))
            return false;
        change(record(FIRST, STATEMENT), at);
        change(record(FIRST, HOLDER), FIRST);
        if (!is_taken("it holds its own"))
            return false;
        change(record(FIRST, STATEMENT), at);
        change(record(FIRST, HOLDER), PROGRAM);
        if (!(at == cycle ? is_taken("at its cycle") : is_forged("another holds its own")))
            return false;
    }
    return true;
}

/* A store is put into the call next.pass(0, n) of its cycle, on process w. */
static void enter(int process, int w, unsigned call, unsigned at)
{
    const size_t links[] = {0, call, (size_t)process, PASS, 0, area(process, N)};
    for (int i = 0; i < 6; i++)
        change(area(process, N + 1 + i), links[i]);
    change(record(process, STATEMENT), at);
    change(record(process, FRAME_AT), N + 1);
    change(record(process, TOP), N + 7);
    change(record(process, WORKS), (size_t)w);
    change(record(process, DEPTH), 1);
}

/* Two processes at work on one another's variables, whoever holds them. */
static bool one_another(void)
{
    if (!reach(PASSING))
        return false;
    unsigned call = word_at(record(FIRST, STATEMENT)) + 2, inside = word_at(record(PROGRAM, STATEMENT)) + 2;
    for (size_t holders = 0; holders < (OTHER + 1) * (OTHER + 1); holders++) {
        enter(FIRST, SECOND, call, inside);
        enter(SECOND, FIRST, call, inside);
        change(record(FIRST, HOLDER), holders % (OTHER + 1));
        change(record(SECOND, HOLDER), holders / (OTHER + 1));
        if (!is_forged("two processes work on one another's variables"))
            return false;
        enter(FIRST, SECOND, call, inside);
        change(record(FIRST, HOLDER), holders % (OTHER + 1));
        change(record(SECOND, HOLDER), holders / (OTHER + 1));
        bool is_held = holders % (OTHER + 1) == FIRST && holders / (OTHER + 1) == FIRST;
        if (!(is_held ? is_taken("one at work on both") : is_forged("one at work on what it does not hold")))
            return false;
    }
    return true;
}

/* ---- a var parameter is bound where its caller could select */

struct binding {
    enum moment moment;
    int word;        /* the var parameter, in the program's area */
    bool is_fine[6]; /* bound to the integer of process 1 (y) .. 5 */
    const char *what;
};

static bool binding(void)
{
    static const struct binding bindings[] = {
        {BUMPING, BUMP_Z, {false, true}, "a local call's var parameter"},
        {PASSING, PASS_X, {false, true}, "a process call's var parameter"},
        {ADDING, PASS_X, {false, true}, "that of the outermost call"},
        {ADDING, SECOND_X, {false, true, false, false, true}, "that of the second call"},
        {ADDING, FIRST_X, {false, true, false, true, true}, "that of the third call"},
        {ADDING, ADD_X, {false, true, true, true, true}, "that of a local call on the last"},
    };
    for (size_t i = 0; i < sizeof bindings / sizeof *bindings; i++) {
        const struct binding *x = &bindings[i];
        if (!reach(x->moment))
            return false;
        if (word_at(area(PROGRAM, x->word)) != area(PROGRAM, Y))
            return bad("%s is not at word %d", x->what, x->word);
        for (int p = PROGRAM; p <= OTHER; p++) {
            change(area(PROGRAM, x->word), area(p, p == PROGRAM ? Y : N));
            if (!(x->is_fine[p] ? is_taken(x->what) : is_forged(x->what)))
                return false;
        }
    }
    return true;
}

/* ---- a local call works on what its caller works on, a process call on what its process works on nowhere else */

static bool working(void)
{
    if (!reach(ADDING))
        return false;
    if (word_at(record(PROGRAM, WORKS)) != FIRST || word_at(area(PROGRAM, ADD_WORKS)) != FIRST)
        return bad("the calls work on other processes");
    for (size_t p = SECOND; p <= OTHER; p++) {
        change(record(PROGRAM, WORKS), p); /* a local call */
        change(record(OTHER, HOLDER), PROGRAM);
        if (!is_forged("a local call works on another process than its caller"))
            return false;
        change(record(PROGRAM, WORKS), p); /* the local call, and the process call around it */
        change(area(PROGRAM, ADD_WORKS), p);
        change(record(OTHER, HOLDER), PROGRAM);
        if (!(p == OTHER ? is_taken("a process call of another process") : is_forged("a process call on what is worked on outside it")))
            return false;
    }
    return true;
}

/* ---- what is worked on has been started */

static bool starting(void)
{
    static const struct {
        enum moment moment;
        int process;
    } worked[] = {{PASSING, THIRD}, {ADDING, THIRD}, {ADDING, SECOND}, {ADDING, FIRST}};
    for (size_t i = 0; i < sizeof worked / sizeof *worked; i++) {
        if (!reach(worked[i].moment))
            return false;
        for (size_t status = CREATED; status <= ENDED; status++) {
            change(record(worked[i].process, STATUS), status);
            if (!(status == CREATED ? is_forged("a process that is not started is worked on") : is_taken("it is started or has ended")))
                return false;
        }
        change(record(OTHER, STATUS), CREATED);
        if (!is_taken("a process that is not started, on which nobody works"))
            return false;
    }
    return true;
}

/* ---- marks: the rule says nothing of them; the number that the run was begun with is 0 or 1 */

static bool marking(void)
{
    seed = 31;
    if (!reach(ADDING))
        return false;
    for (int round = 0; round < 400 / SHARE; round++) {
        for (uint32_t changes = 1 + below(4); changes > 0; changes--)
            change(17664 + 16 * below(OTHER) + below(below(2) ? 2 : 16), below(65536));
        change(record(PROGRAM, NUMBER), below(2));
        if (!is_taken("other marks"))
            return false;
    }
    for (size_t number = 2; number < 65536; number = 2 * number + 1) {
        change(record(PROGRAM, NUMBER), number);
        if (!is_forged("begun with another number than 0 and 1"))
            return false;
    }
    return true;
}

void forged_tests(void)
{
    run_test("forged_holding", holding);
    run_test("forged_holding_given_up", holding_given_up);
    run_test("forged_holding_elsewhere", holding_elsewhere);
    run_test("forged_one_another", one_another);
    run_test("forged_binding", binding);
    run_test("forged_working", working);
    run_test("forged_starting", starting);
    run_test("forged_marking", marking);
}
