/* Reserves: what a module's space lets its recursive procedures take, and what counts against the area alone. The board of these tests:
 *
 *     type triple = record x: integer; y: integer; z: integer end
 *     process chip(peer: chip; leads: boolean) space S
 *       var done: integer; and PADS integers more, which nobody uses
 *       procedure down(n: integer) begin if n > 1 do down(n - 1) else true do done := done + 1 end end
 *       procedure other(var v: triple) var w: triple begin skip end
 *       procedure hop(n: integer) begin down(n) end
 *     begin done := 0; if leads do BODY end end
 *     var a: chip; b: chip
 *     procedure again(n: integer) begin if n > 1 do again(n - 1) else true do skip end end
 *     begin create a; create b; start a(b, true); start b(a, false); again(N) end
 *
 * down, hop and again take 5 words a call, other 8; other is never called, and counts all the same. */
#include "builder.h"
#include "support.h"
#include "tests.h"

#include <string.h>

enum { PROGRAM, CHIP, DOWN, OTHER, HOP, AGAIN };
enum { CALL = JOYCE_CALL_WORDS + 1, ONE_OF_EACH = 2 * CALL + JOYCE_CALL_WORDS + 4 }; /* of the chip's procedures */
enum { MAIN = 1, FIRST, SECOND };
enum { CHIP_WORDS = 3, MOST_PADS = CALL - 1 }; /* with 0 to 4 pads the last call ends at each of the last words of an area, and at the first beyond */

/* What the first chip does. */
enum body { LOCAL, FAR, FAR_HOP, FAR_THEN_LOCAL, HOPS, WRONG_ARGUMENT /* as LOCAL, but the argument n - 1 + 0 / (n - WRONG) */ };
enum { WRONG = 3 };

static struct builder b;
static struct run_state r;
static uint8_t bytes[JOYCE_ACCEPTED_MAX];
static int peer, leads, done, pads;

static int argument_of(int n, bool is_wrong)
{
    int less = binary(&b, '-', value(&b, n), integer(&b, 1));
    if (!is_wrong)
        return less;
    return binary(&b, '+', less, binary(&b, '/', integer(&b, 0), binary(&b, '-', value(&b, n), integer(&b, WRONG))));
}

static void put_recursion(int procedure, int n, bool counts, bool is_wrong)
{
    begin_body(&b, procedure);
    put_if(&b);
    put_arm(&b, binary(&b, '>', value(&b, n), integer(&b, 1)));
    put_call(&b, procedure, 1, argument_of(n, is_wrong));
    put_arm(&b, boolean(&b, true));
    if (counts)
        put_assign(&b, whole(&b, done), binary(&b, '+', value(&b, done), integer(&b, 1)));
    else
        put_skip(&b);
    put_end(&b);
    end_body(&b);
}

static void put_chip_body(enum body body, int depth)
{
    begin_body(&b, CHIP);
    put_assign(&b, whole(&b, done), integer(&b, 0));
    put_if(&b);
    put_arm(&b, value(&b, leads));
    if (body == FAR || body == FAR_THEN_LOCAL)
        put_process_call(&b, whole(&b, peer), DOWN, 1, integer(&b, depth));
    if (body == FAR_HOP)
        put_process_call(&b, whole(&b, peer), HOP, 1, integer(&b, depth));
    if (body == LOCAL || body == FAR_THEN_LOCAL || body == WRONG_ARGUMENT)
        put_call(&b, DOWN, 1, integer(&b, depth));
    if (body == HOPS)
        put_call(&b, HOP, 1, integer(&b, depth));
    put_end(&b);
    end_body(&b);
}

/* The table, with the spaces of the program and of the chip, and how deep the chips' and the program's procedures go. */
static size_t build(int program_space, int chip_space, enum body body, int depth, int program_depth)
{
    start_table(&b);
    int triple = record_type(&b, 3, INTEGER, INTEGER, INTEGER), type = process_type(&b, CHIP);
    int x = add_local(&b, add_program(&b), type), y = add_local(&b, PROGRAM, type);
    peer = add_value_parameter(&b, add_module(&b), type);
    leads = add_value_parameter(&b, CHIP, BOOLEAN);
    done = add_local(&b, CHIP, INTEGER);
    for (int i = 0; i < pads; i++)
        add_local(&b, CHIP, INTEGER);
    int n = add_value_parameter(&b, add_procedure(&b, CHIP), INTEGER);
    add_var_parameter(&b, add_procedure(&b, CHIP), triple);
    add_local(&b, OTHER, triple);
    int h = add_value_parameter(&b, add_procedure(&b, CHIP), INTEGER);
    int again = add_value_parameter(&b, add_procedure(&b, PROGRAM), INTEGER);
    set_space(&b, PROGRAM, program_space);
    set_space(&b, CHIP, chip_space);

    begin_body(&b, PROGRAM);
    put_create(&b, whole(&b, x));
    put_create(&b, whole(&b, y));
    put_start(&b, whole(&b, x), 2, value(&b, y), boolean(&b, true));
    put_start(&b, whole(&b, y), 2, value(&b, x), boolean(&b, false));
    put_call(&b, AGAIN, 1, integer(&b, program_depth));
    end_body(&b);
    put_chip_body(body, depth);
    put_recursion(DOWN, n, true, body == WRONG_ARGUMENT);
    begin_body(&b, OTHER);
    put_skip(&b);
    end_body(&b);
    begin_body(&b, HOP);
    put_call(&b, DOWN, 1, value(&b, h));
    end_body(&b);
    put_recursion(AGAIN, again, false, false);
    return finish_table(&b, bytes, sizeof bytes);
}

static bool begin_board(int program_space, int chip_space, enum body body, int depth, int program_depth)
{
    struct table t = {bytes, build(program_space, chip_space, body, depth, program_depth), JOYCE_ACCEPTED};
    if (t.length == 0)
        return bad("%s", builder_mistake(&b));
    return joyce_check(t.bytes, t.length) == JOYCE_ACCEPTED ? begin_with(&r, t, JOYCE_START_UNSET) : bad("the table is refused");
}

/* One step; its answer, or 255. */
static unsigned step(uint8_t process)
{
    uint8_t answer = 255;
    return run_turns(&r, &process, 1, &answer) ? answer : 255;
}

/* Steps of a process until one does something else than advance; that answer. */
static unsigned run_on(uint8_t process)
{
    unsigned answer = JOYCE_DONE;
    for (int i = 0; i < 2000 && answer == JOYCE_DONE; i++)
        answer = step(process);
    return answer;
}

static bool end_of(uint8_t process, unsigned answer)
{
    unsigned seen = run_on(process);
    return seen == answer || bad("process %u answers %u, not %u", process, seen, answer);
}

/* Both chips are started, and the second has ended, so that nobody holds its variables. */
static bool boot(void)
{
    for (int i = 0; i < 4; i++)
        if (step(MAIN) != JOYCE_DONE)
            return bad("the program does not boot");
    return end_of(SECOND, JOYCE_ENDED);
}

/* ---- the bound, to the word */

static bool to_the_word(void)
{
    for (int space = 0; space <= 120; space += 2) {
        int deepest = (ONE_OF_EACH + space / 2) / CALL;
        for (int depth = deepest; depth <= deepest + 1; depth++) {
            unsigned answer = depth == deepest ? JOYCE_ENDED : JOYCE_AREA;
            if (!begin_board(0, space, LOCAL, depth, 1) || !boot() || !end_of(FIRST, answer))
                return false;
        }
    }
    return true;
}

/* Process 1 has the space of block 0, and the chips' procedures do not count for it, nor their space. */
static bool of_the_program(void)
{
    for (int space = 0; space <= 60; space += 2) {
        int deepest = (CALL + space / 2) / CALL;
        for (int depth = deepest; depth <= deepest + 1; depth++) {
            if (!begin_board(space, 2 * (60 - space), LOCAL, 1, depth) || !boot() || !end_of(MAIN, depth == deepest ? JOYCE_ENDED : JOYCE_AREA))
                return false;
        }
    }
    return true;
}

/* Two procedures: hop, and down inside it. */
static bool of_two_procedures(void)
{
    for (int space = 0; space <= 60; space += 2) {
        int deepest = (ONE_OF_EACH + space / 2) / CALL - 1;
        if (!begin_board(0, space, HOPS, deepest, 1) || !boot() || !end_of(FIRST, JOYCE_ENDED))
            return false;
        if (!begin_board(0, space, HOPS, deepest + 1, 1) || !boot() || !end_of(FIRST, JOYCE_AREA))
            return false;
    }
    return true;
}

/* ---- the area, to the word */

static bool ends(enum body body, int space, int depth, unsigned answer)
{
    return begin_board(0, space, body, depth, 1) && boot() && end_of(FIRST, answer);
}

/* How deep calls get in a chip's area. */
static int deepest_of_area(void)
{
    return (JOYCE_AREA_WORDS - CHIP_WORDS - pads) / CALL;
}

static bool with_pads(bool (*test)(void))
{
    bool is_ok = true;
    for (pads = 0; is_ok && pads <= MOST_PADS; pads++)
        is_ok = test();
    pads = 0;
    return is_ok;
}

static bool own_calls_fill_area(void)
{
    int deepest = deepest_of_area();
    return ends(LOCAL, JOYCE_SPACE_MAX, deepest, JOYCE_ENDED) && ends(LOCAL, JOYCE_SPACE_MAX, deepest + 1, JOYCE_AREA);
}

static bool area_alone(void)
{
    return with_pads(own_calls_fill_area);
}

/* ---- calls on other processes */


/* A process call and the local calls inside it count against the 256 words alone, though the target is of the caller's own module. */
static bool far_calls_fill_area(void)
{
    int deepest = deepest_of_area();
    for (int space = 0; space <= JOYCE_SPACE_MAX; space += JOYCE_SPACE_MAX / 3)
        if (!ends(FAR, space, deepest, JOYCE_ENDED) || !ends(FAR, space, deepest + 1, JOYCE_AREA) ||
            !ends(FAR_HOP, space, deepest - 1, JOYCE_ENDED) || !ends(FAR_HOP, space, deepest, JOYCE_AREA))
            return false;
    return true;
}

static bool inside_process_calls(void)
{
    return with_pads(far_calls_fill_area);
}

/* When the process call has ended, what stood in it does not count, and the process's own calls do. */
static bool after_process_calls(void)
{
    int deepest = ONE_OF_EACH / CALL;
    return ends(FAR_THEN_LOCAL, 0, deepest, JOYCE_ENDED) && ends(FAR_THEN_LOCAL, 0, deepest + 1, JOYCE_AREA);
}

/* ---- the step that fails */

/* 22 comes after the arguments, and changes only the failure mark. */
static bool failing_step(void)
{
    static uint8_t before[JOYCE_STATE_SIZE];
    int deepest = ONE_OF_EACH / CALL; /* with the call whose argument fails the reserve would be passed */
    if (!begin_board(0, 0, WRONG_ARGUMENT, WRONG + deepest - 1, 1) || !boot() || !end_of(FIRST, JOYCE_DIVISOR))
        return false;
    if (!begin_board(0, 0, WRONG_ARGUMENT, WRONG + deepest, 1) || !boot() || !end_of(FIRST, JOYCE_AREA))
        return false;
    if (!begin_board(0, 0, LOCAL, 2 + ONE_OF_EACH / CALL, 1) || !boot())
        return false;
    unsigned answer;
    do {
        memcpy(before, r.state, sizeof before);
        answer = step(FIRST);
    } while (answer == JOYCE_DONE);
    if (answer != JOYCE_AREA)
        return bad("it answers %u", answer);
    before[2 * (16384 + 9)] = JOYCE_AREA;
    if (memcmp(before, r.state, sizeof before) != 0)
        return bad("another byte has changed");
    return step(SECOND) == JOYCE_AREA && step(65) == JOYCE_AREA ? true : bad("a later step answers another number");
}

/* A state whose calls take more than the table's reserve is accepted: its calls go on and end, and only a new one fails. */
static bool stored_above_reserve(void)
{
    enum { DEPTH = 20, FEW = 10 };
    for (int calls = FEW; calls <= DEPTH; calls += DEPTH - FEW) {
        if (!begin_board(0, JOYCE_SPACE_MAX, LOCAL, DEPTH, 1) || !boot())
            return false;
        for (int i = 0; i < 1 + 2 * calls; i++) /* done := 0, and an opener and a call each */
            if (step(FIRST) != JOYCE_DONE)
                return bad("the calls do not go on");
        build(0, 0, LOCAL, DEPTH, 1); /* the same table with a space of 0, in the same bytes */
        if (!end_of(FIRST, calls == DEPTH ? JOYCE_ENDED : JOYCE_AREA))
            return false;
    }
    return true;
}

void space_tests(void)
{
    run_test("space_to_the_word", to_the_word);
    run_test("space_of_the_program", of_the_program);
    run_test("space_of_two_procedures", of_two_procedures);
    run_test("space_area_alone", area_alone);
    run_test("space_inside_process_calls", inside_process_calls);
    run_test("space_after_process_calls", after_process_calls);
    run_test("space_failing_step", failing_step);
    run_test("space_stored_above_reserve", stored_above_reserve);
}
