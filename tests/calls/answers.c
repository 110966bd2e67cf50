/* Each answer of a step, by a small program; and what a success leaves in each lent slice. */
#include "builder.h"
#include "support.h"
#include "tests.h"

#include <string.h>

static struct builder b;
static struct run_state r;
static uint8_t bytes[JOYCE_ACCEPTED_MAX];

/* ---- small programs: block 0 with an integer n, its first statement to be written */

static int n;

static void begin_small(void)
{
    start_table(&b);
    add_program(&b);
    n = add_local(&b, 0, INTEGER);
    begin_body(&b, 0);
}

/* The answers of process 1, turn after turn, are `expected`, which ends where a failure stands for all that follow. */
static bool answers_are(const uint8_t *expected, size_t count)
{
    uint8_t turns[16], answers[16];
    struct table t = {bytes, finish_table(&b, bytes, sizeof bytes), JOYCE_ACCEPTED};
    if (joyce_check(t.bytes, t.length) != JOYCE_ACCEPTED)
        return bad("the verdict is %u", (unsigned)joyce_check(t.bytes, t.length));
    memset(turns, 1, sizeof turns);
    if (!begin(&r, t) || !run_turns(&r, turns, sizeof turns, answers))
        return false;
    for (size_t i = 0; i < sizeof turns; i++) {
        uint8_t want = expected[i < count ? i : count - 1];
        if (answers[i] != want)
            return bad("step %zu answered %u, not %u", i + 1, answers[i], want);
    }
    return true;
}

#define ANSWERS_ARE(...) answers_are((const uint8_t[]){__VA_ARGS__}, sizeof((const uint8_t[]){__VA_ARGS__}))

static bool assign_answers(int expression, uint8_t answer)
{
    put_assign(&b, whole(&b, n), expression);
    end_body(&b);
    return answer == JOYCE_DONE ? ANSWERS_ARE(JOYCE_DONE, JOYCE_ENDED) : answers_are(&answer, 1);
}

static bool ends(void)
{
    begin_small();
    put_skip(&b);
    end_body(&b);
    return ANSWERS_ARE(JOYCE_DONE, JOYCE_ENDED);
}

static bool waits(void)
{
    begin_small();
    put_when(&b);
    put_arm(&b, boolean(&b, false));
    put_skip(&b);
    put_end(&b);
    end_body(&b);
    return ANSWERS_ARE(JOYCE_WAITS);
}

static bool no_process(void)
{
    uint8_t turns[] = {0, 2, 64, 65, 255}, answers[5];
    if (!begin(&r, board) || !run_turns(&r, turns, 5, answers))
        return false;
    for (int i = 0; i < 5; i++)
        if (answers[i] != JOYCE_NO_PROCESS)
            return bad("process %u answered %u", turns[i], answers[i]);
    return true;
}

static bool overflow(void)
{
    begin_small();
    return assign_answers(binary(&b, '+', integer(&b, 32767), integer(&b, 1)), JOYCE_OVERFLOW);
}

static bool least_divided(void)
{
    begin_small();
    return assign_answers(binary(&b, '/', integer(&b, -32768), integer(&b, -1)), JOYCE_OVERFLOW);
}

static bool divisor(void)
{
    begin_small();
    return assign_answers(binary(&b, '/', integer(&b, 5), integer(&b, 0)), JOYCE_DIVISOR);
}

static bool index_outside(void)
{
    static const int indexes[] = {1, 100, 0, 101, -32768, 32767};
    for (size_t i = 0; i < sizeof indexes / sizeof *indexes; i++) {
        begin_small();
        int list = add_local(&b, 0, array_type(&b, INTEGER, INTEGER, 1, 100));
        int expression = value_at(&b, element(&b, whole(&b, list), integer(&b, indexes[i])));
        if (!assign_answers(expression, indexes[i] >= 1 && indexes[i] <= 100 ? JOYCE_DONE : JOYCE_INDEX))
            return false;
    }
    return true;
}

static bool address(void)
{
    static const struct {
        int address;
        uint8_t answer;
    } cases[] = {{-8192, JOYCE_DONE},    {-2, JOYCE_DONE},   {-1, JOYCE_ADDRESS}, {-8191, JOYCE_ADDRESS},
                 {-8194, JOYCE_ADDRESS}, {0, JOYCE_ADDRESS}, {2, JOYCE_ADDRESS},  {32766, JOYCE_ADDRESS}};
    for (size_t i = 0; i < sizeof cases / sizeof *cases; i++) {
        begin_small();
        if (!assign_answers(device(&b, integer(&b, cases[i].address)), cases[i].answer))
            return false;
        begin_small();
        put_write(&b, integer(&b, cases[i].address), integer(&b, 7));
        end_body(&b);
        if (!(cases[i].answer == JOYCE_DONE ? ANSWERS_ARE(JOYCE_DONE, JOYCE_ENDED) : ANSWERS_ARE(JOYCE_ADDRESS)))
            return false;
        if (cases[i].answer == JOYCE_DONE && joyce_get(r.page, cases[i].address) != 7)
            return bad("the word written at %d is not there", cases[i].address);
    }
    return true;
}

static bool transferred(void)
{
    begin_small();
    int c = add_local(&b, 0, CHARACTER);
    put_assign(&b, whole(&b, c), transfer(&b, integer(&b, 127), CHARACTER));
    put_assign(&b, whole(&b, c), transfer(&b, integer(&b, 128), CHARACTER));
    end_body(&b);
    return ANSWERS_ARE(JOYCE_DONE, JOYCE_TRANSFER);
}

/* A procedure that calls itself: each call takes four words and one, of the 255 that the program's variable leaves. With the largest space the area is
 * the only limit. */
static bool area_full(void)
{
    static const uint8_t done[64] = {JOYCE_DONE};
    uint8_t schedule[64], answers[64];
    begin_small();
    int again = add_procedure(&b, 0);
    add_local(&b, again, INTEGER);
    set_space(&b, 0, JOYCE_SPACE_MAX);
    put_call(&b, again, 0);
    end_body(&b);
    begin_body(&b, again);
    put_call(&b, again, 0);
    end_body(&b);
    struct table t = {bytes, finish_table(&b, bytes, sizeof bytes), JOYCE_ACCEPTED};
    memset(schedule, 1, sizeof schedule);
    if (!begin(&r, t) || !run_turns(&r, schedule, sizeof schedule, answers))
        return false;
    if (memcmp(answers, done, 51) != 0)
        return bad("fewer than 51 calls fit");
    return answers[51] == JOYCE_AREA || bad("the call after 51 answered %u", answers[51]);
}

/* A module whose one statement is a skip, and a program with a variable of it. */
static int begin_with_module(void)
{
    start_table(&b);
    add_program(&b);
    int module = add_module(&b);
    int reference = add_local(&b, 0, process_type(&b, module));
    begin_body(&b, module);
    put_skip(&b);
    end_body(&b);
    begin_body(&b, 0);
    return reference;
}

static bool empty_reference(void)
{
    int reference = begin_with_module();
    put_start(&b, whole(&b, reference), 0);
    end_body(&b);
    return ANSWERS_ARE(JOYCE_EMPTY);
}

static bool started_twice(void)
{
    int reference = begin_with_module();
    put_create(&b, whole(&b, reference));
    put_start(&b, whole(&b, reference), 0);
    put_start(&b, whole(&b, reference), 0);
    end_body(&b);
    return ANSWERS_ARE(JOYCE_DONE, JOYCE_DONE, JOYCE_TWICE);
}

/* A create in a loop: three steps a round. The 63rd works, and the next fails. */
static bool too_many_processes(void)
{
    uint8_t schedule[256], answers[256];
    int reference = begin_with_module();
    put_while(&b);
    put_arm(&b, boolean(&b, true));
    put_create(&b, whole(&b, reference));
    put_end(&b);
    end_body(&b);
    struct table t = {bytes, finish_table(&b, bytes, sizeof bytes), JOYCE_ACCEPTED};
    memset(schedule, 1, sizeof schedule);
    if (!begin(&r, t) || !run_turns(&r, schedule, sizeof schedule, answers))
        return false;
    for (int i = 0; i < 256; i++)
        if (answers[i] != (i < 3 * 63 + 1 ? JOYCE_DONE : JOYCE_PROCESSES))
            return bad("step %d answered %u", i + 1, answers[i]);
    return joyce_look(t.bytes, t.length, r.state, sizeof r.state, 1, 0, 0) == JOYCE_WORD + 64 || bad("the last process is not 64");
}

/* After a failure each step answers its number, of whatever process, and nothing changes; look still answers. */
static bool failure_stays(void)
{
    static struct run_state failed;
    uint8_t turns[] = {1, 2, 0, 255, 1}, answers[5];
    begin_small();
    if (!assign_answers(binary(&b, '%', integer(&b, 5), integer(&b, 0)), JOYCE_DIVISOR))
        return false;
    failed = r;
    if (!run_turns(&r, turns, 5, answers))
        return false;
    for (int i = 0; i < 5; i++)
        if (answers[i] != JOYCE_DIVISOR)
            return bad("process %u answered %u after the failure", turns[i], answers[i]);
    if (memcmp(failed.state, r.state, sizeof r.state) != 0)
        return bad("a step after the failure changed the state");
    return joyce_look(r.table.bytes, r.table.length, r.state, sizeof r.state, 1, 0, 0) == JOYCE_WORD || bad("look after the failure");
}

/* ---- who waits: a program with a process r of a module that has an integer, and a procedure that adds 1 to it */

enum { COUNTER = 1, ADD = 2 };
static int r_variable, counted;

/* The module's body comes next, and then the program's. */
static void begin_counter(bool has_own_reference)
{
    start_table(&b);
    int type = process_type(&b, COUNTER);
    r_variable = add_local(&b, add_program(&b), type);
    add_procedure(&b, add_module(&b));
    if (has_own_reference)
        add_value_parameter(&b, COUNTER, type);
    counted = add_local(&b, COUNTER, INTEGER);
    begin_body(&b, ADD);
    put_assign(&b, whole(&b, counted), binary(&b, '+', value(&b, counted), integer(&b, 1)));
    end_body(&b);
    begin_body(&b, COUNTER);
}

struct turn {
    uint8_t process, answer;
};

static bool turns_answer(const struct turn *turns, size_t count)
{
    struct table t = {bytes, finish_table(&b, bytes, sizeof bytes), JOYCE_ACCEPTED};
    if (!begin(&r, t))
        return false;
    for (size_t i = 0; i < count; i++) {
        uint8_t answer;
        if (!run_turns(&r, &turns[i].process, 1, &answer))
            return false;
        if (answer != turns[i].answer)
            return bad("step %zu, process %u, answered %u, not %u", i + 1, turns[i].process, answer, turns[i].answer);
    }
    return true;
}

#define TURNS_ANSWER(...) turns_answer((const struct turn[]){__VA_ARGS__}, sizeof((const struct turn[]){__VA_ARGS__}) / sizeof(struct turn))

static void write_caller(int calls)
{
    begin_body(&b, 0);
    put_create(&b, whole(&b, r_variable));
    put_start(&b, whole(&b, r_variable), 0);
    for (int i = 0; i < calls; i++)
        put_process_call(&b, whole(&b, r_variable), ADD, 0);
    end_body(&b);
}

/* A process that is created and not started waits. Between its start and its end it holds its variables, so that no call comes in. */
static bool target_held(void)
{
    begin_counter(false);
    put_skip(&b);
    put_skip(&b);
    end_body(&b);
    write_caller(1);
    return TURNS_ANSWER({1, JOYCE_DONE}, {2, JOYCE_WAITS}, {1, JOYCE_DONE}, {1, JOYCE_WAITS}, {2, JOYCE_DONE}, {1, JOYCE_WAITS},
                        {2, JOYCE_DONE}, {2, JOYCE_ENDED}, {1, JOYCE_DONE}, {1, JOYCE_DONE}, {1, JOYCE_DONE}, {1, JOYCE_ENDED});
}

/* A blocked when gives up its variables, and a call takes them. Until the call ends the process waits, though its guard has become true. When it
 * goes on it has its variables back, and the next call waits for its end. */
static bool variables_held(void)
{
    begin_counter(false);
    put_when(&b);
    put_arm(&b, binary(&b, '>', value(&b, counted), integer(&b, 0)));
    put_skip(&b);
    put_end(&b);
    end_body(&b);
    write_caller(2);
    return TURNS_ANSWER({1, JOYCE_DONE}, {1, JOYCE_DONE}, {2, JOYCE_WAITS}, {1, JOYCE_DONE}, {2, JOYCE_WAITS}, {1, JOYCE_DONE},
                        {2, JOYCE_WAITS}, {1, JOYCE_DONE}, {2, JOYCE_DONE}, {1, JOYCE_WAITS}, {2, JOYCE_DONE}, {2, JOYCE_DONE},
                        {1, JOYCE_WAITS}, {2, JOYCE_ENDED}, {1, JOYCE_DONE}, {1, JOYCE_DONE}, {1, JOYCE_DONE}, {1, JOYCE_ENDED});
}

/* A call on one's own reference waits for ever. */
static bool own_reference(void)
{
    begin_counter(true);
    put_process_call(&b, whole(&b, r_variable + 1), ADD, 0);
    end_body(&b);
    begin_body(&b, 0);
    put_create(&b, whole(&b, r_variable));
    put_start(&b, whole(&b, r_variable), 1, value(&b, r_variable));
    end_body(&b);
    return TURNS_ANSWER({1, JOYCE_DONE}, {1, JOYCE_DONE}, {2, JOYCE_WAITS}, {2, JOYCE_WAITS}, {1, JOYCE_ENDED}, {2, JOYCE_WAITS});
}

/* ---- what a success leaves */

/* Begin and run between shut pages leave what they leave elsewhere, and touch nothing beside their slices. */
static bool fenced_success(void)
{
    static struct run_state plain, fenced;
    uint8_t turns[600], answers[600], given[600];
    for (size_t i = 0; i < sizeof turns; i++)
        turns[i] = (uint8_t)(1 + i % 5);
    for (int at_end = 0; at_end < 2; at_end++) {
        if (!begin(&plain, board) || !begin(&fenced, board))
            return false;
        memset(fenced.state, 0x77, sizeof fenced.state);
        struct lent lent = lend(&fenced, turns, sizeof turns, answers);
        if (call(BEGIN, &lent, at_end) != JOYCE_OK || memcmp(left(STATE), plain.state, sizeof plain.state) != 0)
            return bad("begin");
        memcpy(fenced.state, left(STATE), sizeof fenced.state);
        if (call(RUN, &lent, at_end) != JOYCE_OK || !run_turns(&plain, turns, sizeof turns, given))
            return bad("run");
        for (int i = 0; i < SLICES; i++)
            if (!is_outside_kept((enum slice)i))
                return bad("run wrote beside slice %d", i);
        if (memcmp(left(STATE), plain.state, sizeof plain.state) || memcmp(left(PAGE), plain.page, sizeof plain.page) ||
            memcmp(left(ANSWERS), given, sizeof given))
            return bad("run between shut pages differs");
        lent.bytes[STATE] = plain.state;
        lent.variable = 3;
        if (call(LOOK, &lent, at_end) < JOYCE_WORD)
            return bad("look");
    }
    return true;
}

/* Answer bytes after those of the schedule are as they were. */
static bool answer_tail(void)
{
    static struct run_state other;
    uint8_t turns[64], answers[200], short_answers[64];
    for (size_t count = 0; count <= sizeof turns; count++) {
        memset(turns, 1, sizeof turns);
        memset(answers, 0xc3, sizeof answers);
        if (!begin(&r, board) || !begin(&other, board) || !run_turns(&other, turns, count, short_answers))
            return false;
        uint32_t result = joyce_run(board.bytes, board.length, r.state, sizeof r.state, r.page, sizeof r.page, turns, count, answers,
                                    sizeof answers);
        if (result != JOYCE_OK || memcmp(answers, short_answers, count) != 0)
            return bad("%zu steps with room for 200 answers differ", count);
        for (size_t i = count; i < sizeof answers; i++)
            if (answers[i] != 0xc3)
                return bad("%zu steps wrote answer byte %zu", count, i);
    }
    return true;
}

static bool empty_schedule(void)
{
    static struct run_state before;
    uint8_t answers[8] = {9, 9, 9, 9, 9, 9, 9, 9}, kept[8];
    if (!begin(&r, board) || !advance(&r, 500))
        return false;
    before = r;
    memcpy(kept, answers, sizeof kept);
    uint32_t result = joyce_run(board.bytes, board.length, r.state, sizeof r.state, r.page, sizeof r.page, kept, 0, answers, sizeof answers);
    bool is_same = memcmp(before.state, r.state, sizeof r.state) == 0 && memcmp(before.page, r.page, sizeof r.page) == 0 &&
                   memcmp(kept, answers, sizeof kept) == 0;
    return (result == JOYCE_OK && is_same) || bad("it returned %u, or changed something", (unsigned)result);
}

/* Slices need no alignment. */
static bool odd_places(void)
{
    static uint8_t table[JOYCE_ACCEPTED_MAX + 8], state[JOYCE_STATE_SIZE + 8], page[JOYCE_PAGE_SIZE + 8], turns[520], answers[520];
    static struct run_state even;
    uint8_t given[512];
    for (size_t shift = 0; shift < 8; shift++) {
        for (size_t i = 0; i < 512; i++)
            turns[shift + i] = (uint8_t)(1 + i % 4);
        memcpy(table + shift, board.bytes, board.length);
        memset(page, 0, sizeof page);
        if (!begin(&even, board) || !run_turns(&even, turns + shift, 512, given))
            return false;
        if (joyce_begin(table + shift, board.length, state + shift, JOYCE_STATE_SIZE, JOYCE_START_ZEROS) != JOYCE_OK ||
            joyce_run(table + shift, board.length, state + shift, JOYCE_STATE_SIZE, page + shift, JOYCE_PAGE_SIZE, turns + shift, 512,
                      answers + shift, 512) != JOYCE_OK)
            return bad("slices at %zu bytes from an even place are refused", shift);
        if (memcmp(state + shift, even.state, JOYCE_STATE_SIZE) || memcmp(page + shift, even.page, JOYCE_PAGE_SIZE) ||
            memcmp(answers + shift, given, 512))
            return bad("slices at %zu bytes from an even place differ", shift);
    }
    return true;
}

/* Slices that are only read may be the same bytes: here the table is its own schedule. */
static bool shared_slices(void)
{
    static struct run_state other;
    static uint8_t copy[JOYCE_ACCEPTED_MAX], first[JOYCE_ACCEPTED_MAX], second[JOYCE_ACCEPTED_MAX];
    memcpy(copy, board.bytes, board.length);
    if (!begin(&r, board) || !begin(&other, board))
        return false;
    if (!run_turns(&r, board.bytes, board.length, first) || !run_turns(&other, copy, board.length, second))
        return false;
    return (memcmp(first, second, board.length) == 0 && memcmp(r.state, other.state, sizeof r.state) == 0) || bad("the runs differ");
}

void answer_tests(void)
{
    run_test("answer_2_ended", ends);
    run_test("answer_1_waits", waits);
    run_test("answer_1_target_held", target_held);
    run_test("answer_1_variables_held", variables_held);
    run_test("answer_1_own_reference", own_reference);
    run_test("answer_3_no_process", no_process);
    run_test("answer_16_overflow", overflow);
    run_test("answer_16_least_divided", least_divided);
    run_test("answer_17_divisor", divisor);
    run_test("answer_18_index", index_outside);
    run_test("answer_19_empty", empty_reference);
    run_test("answer_20_twice", started_twice);
    run_test("answer_21_address", address);
    run_test("answer_22_area", area_full);
    run_test("answer_23_transfer", transferred);
    run_test("answer_24_processes", too_many_processes);
    run_test("failure_stays", failure_stays);
    run_test("fenced_success", fenced_success);
    run_test("answer_tail", answer_tail);
    run_test("empty_schedule", empty_schedule);
    run_test("odd_places", odd_places);
    run_test("shared_slices", shared_slices);
}
