/* How variables begin: unset, or as zeros. Each program is run both ways: under 1 as in version 1, under 0 with 31 where a value is retrieved that was
 * never given. */
#include "builder.h"
#include "reader.h"
#include "support.h"
#include "tests.h"

#include <string.h>

static struct builder b;
static struct run_state r;
static uint8_t bytes[JOYCE_ACCEPTED_MAX];

enum { FAILURE_WORD = 16384 + 9, NUMBER_WORD = 16384 + 10, MARKS = 35328 };

/* ---- a program that is begun, its turns, its words */

static bool is_begun(uint32_t number)
{
    struct table t = {bytes, finish_table(&b, bytes, sizeof bytes), JOYCE_ACCEPTED};
    uint32_t verdict = joyce_check(t.bytes, t.length);
    if (verdict != 0)
        return bad("the verdict is %u%s%s", (unsigned)verdict, t.length ? "" : ": ", t.length ? "" : builder_mistake(&b));
    return begin_with(&r, t, number);
}

static bool answers(uint8_t process, uint8_t answer)
{
    uint8_t given;
    if (!run_turns(&r, &process, 1, &given))
        return false;
    return given == answer || bad("process %u answered %u, not %u", process, given, answer);
}

static bool looks(int process, int variable, int place, uint32_t expected)
{
    uint32_t seen = joyce_look(r.table.bytes, r.table.length, r.state, sizeof r.state, (uint32_t)process, (uint32_t)variable, (uint32_t)place);
    return seen == expected ||
           bad("look at process %d, variable %d, place %d: %u, not %u", process, variable, place, (unsigned)seen, (unsigned)expected);
}

/* Steps of process 1 that all advance. */
static bool advances(int steps)
{
    while (steps-- > 0)
        if (!answers(1, JOYCE_DONE))
            return false;
    return true;
}

/* The step fails, of whatever process, and changes no byte but the failure mark; later ones change nothing. */
static bool fails(uint8_t process, uint8_t number)
{
    static struct run_state before;
    before = r;
    before.state[2 * FAILURE_WORD] = number;
    if (!answers(process, number))
        return false;
    if (memcmp(before.state, r.state, sizeof r.state) != 0 || memcmp(before.page, r.page, sizeof r.page) != 0)
        return bad("a step that fails with %u changes more than the failure mark", number);
    if (!answers(1, number) || !answers(200, number) || memcmp(before.state, r.state, sizeof r.state) != 0)
        return bad("after a failure with %u", number);
    return true;
}

/* ---- the story: a sound unit that forgets a start value
 *
 *     process sound
 *       var tone: integer; rest: integer
 *       procedure play(pitch: integer) begin tone := pitch; rest := 3 end
 *     begin
 *       tone := 0;                         rest := 0 is forgotten
 *       cycle rest > 0 do write(-4096, tone); rest := rest - 1 end
 *     end
 *     var s: sound
 *     begin create s; start s; s.play(440) end. */

enum { SOUND = 1, PLAY = 2, SOUND_WORD = -4096 };
static int tone, rest;

static void write_sound_unit(bool is_mended)
{
    start_table(&b);
    int s = add_local(&b, add_program(&b), process_type(&b, SOUND));
    add_module(&b);
    add_procedure(&b, SOUND);
    tone = add_local(&b, SOUND, INTEGER);
    rest = add_local(&b, SOUND, INTEGER);
    int pitch = add_value_parameter(&b, PLAY, INTEGER);
    begin_body(&b, 0);
    put_create(&b, whole(&b, s));
    put_start(&b, whole(&b, s), 0);
    put_process_call(&b, whole(&b, s), PLAY, 1, integer(&b, 440));
    end_body(&b);
    begin_body(&b, SOUND);
    put_assign(&b, whole(&b, tone), integer(&b, 0));
    if (is_mended)
        put_assign(&b, whole(&b, rest), integer(&b, 0));
    put_cycle(&b);
    put_arm(&b, binary(&b, '>', value(&b, rest), integer(&b, 0)));
    put_write(&b, integer(&b, SOUND_WORD), value(&b, tone));
    put_assign(&b, whole(&b, rest), binary(&b, '-', value(&b, rest), integer(&b, 1)));
    put_end(&b);
    end_body(&b);
    begin_body(&b, PLAY);
    put_assign(&b, whole(&b, tone), value(&b, pitch));
    put_assign(&b, whole(&b, rest), integer(&b, 3));
    end_body(&b);
}

/* The unit stands at its cycle, a tone is asked for, and is heard. */
static bool tone_is_heard(void)
{
    if (!answers(2, JOYCE_WAITS) || !advances(4) || !answers(1, JOYCE_ENDED) || joyce_get(r.page, SOUND_WORD) != 0)
        return false;
    return answers(2, JOYCE_DONE) && answers(2, JOYCE_DONE) && (joyce_get(r.page, SOUND_WORD) == 440 || bad("no tone is heard")) &&
           answers(2, JOYCE_DONE) && looks(2, tone, 0, JOYCE_WORD + 440) && looks(2, rest, 0, JOYCE_WORD + 2);
}

static bool sound_unit_forgets(void)
{
    write_sound_unit(false);
    if (!is_begun(JOYCE_START_UNSET) || !advances(2) || !answers(2, JOYCE_DONE) || !fails(2, 31))
        return false;
    if (!looks(2, tone, 0, JOYCE_WORD) || !looks(2, rest, 0, 32) || joyce_get(r.page, SOUND_WORD) != 0)
        return false;
    write_sound_unit(false);
    return is_begun(JOYCE_START_ZEROS) && advances(2) && answers(2, JOYCE_DONE) && tone_is_heard();
}

static bool sound_unit_mended(void)
{
    for (uint32_t number = 0; number < 2; number++) {
        write_sound_unit(true);
        if (!is_begun(number) || !advances(2) || !answers(2, JOYCE_DONE) || !answers(2, JOYCE_DONE) || !tone_is_heard())
            return false;
    }
    return true;
}

/* ---- what retrieves, and in which order
 *
 *     var x, y, n: integer; p: boolean; a: array 1..3 of integer; u, v, w: record f, g: integer end
 *     procedure take(k: integer) begin skip end
 *     procedure large(k: integer) var room: array 1..200 of integer; more: array 1..100 of integer begin skip end
 *     procedure bind(var k: integer) begin skip end
 *     begin y := 3; a statement .. */

enum { TAKE = 1, LARGE, BIND, SET, GET };
static int x, y, n, p, a, u, v, w;

static void begin_retrievals(void)
{
    start_table(&b);
    int list = array_type(&b, INTEGER, INTEGER, 1, 3), pair = record_type(&b, 2, INTEGER, INTEGER);
    int large = array_type(&b, INTEGER, INTEGER, 1, 200), more = array_type(&b, INTEGER, INTEGER, 1, 100);
    add_program(&b);
    for (int i = TAKE; i <= GET; i++)
        add_procedure(&b, 0);
    x = add_local(&b, 0, INTEGER);
    y = add_local(&b, 0, INTEGER);
    n = add_local(&b, 0, INTEGER);
    p = add_local(&b, 0, BOOLEAN);
    a = add_local(&b, 0, list);
    u = add_local(&b, 0, pair);
    v = add_local(&b, 0, pair);
    w = add_local(&b, 0, pair);
    add_value_parameter(&b, TAKE, INTEGER);
    add_value_parameter(&b, LARGE, INTEGER);
    add_local(&b, LARGE, large);
    add_local(&b, LARGE, more);
    add_var_parameter(&b, BIND, INTEGER);
    int k = add_var_parameter(&b, SET, INTEGER), l = add_var_parameter(&b, GET, INTEGER);
    for (int i = TAKE; i <= BIND; i++) {
        begin_body(&b, i);
        put_skip(&b);
        end_body(&b);
    }
    begin_body(&b, SET);
    put_assign(&b, whole(&b, k), integer(&b, 5));
    end_body(&b);
    begin_body(&b, GET);
    put_assign(&b, whole(&b, n), value(&b, l));
    end_body(&b);
    begin_body(&b, 0);
    put_assign(&b, whole(&b, y), integer(&b, 3));
}

static int by_0(void)
{
    return binary(&b, '/', integer(&b, 1), integer(&b, 0)); /* fails with 17 */
}

static void arm_skips(int guard)
{
    put_arm(&b, guard);
    put_skip(&b);
}

/* The statement that is tried: one of those below. */
static void put_retrieval(int which)
{
    switch (which) {
    case 0: put_assign(&b, whole(&b, n), value(&b, x)); break;
    case 1: put_assign(&b, whole(&b, n), binary(&b, '+', value(&b, x), by_0())); break;
    case 2: put_assign(&b, whole(&b, n), binary(&b, '+', by_0(), value(&b, x))); break;
    case 3: put_assign(&b, element(&b, whole(&b, a), value(&b, x)), by_0()); break;
    case 4: put_assign(&b, element(&b, whole(&b, a), integer(&b, 9)), value(&b, x)); break;
    case 5: put_assign(&b, whole(&b, n), binary(&b, '/', value(&b, x), integer(&b, 0))); break;
    case 6: put_assign(&b, whole(&b, n), device(&b, value(&b, x))); break;
    case 7: put_assign(&b, whole(&b, n), minus(&b, value(&b, x))); break;
    case 8: put_assign(&b, whole(&b, n), inverse(&b, value(&b, x))); break;
    case 9: put_assign(&b, whole(&b, p), transfer(&b, value(&b, x), BOOLEAN)); break;
    case 10: put_write(&b, minus(&b, integer(&b, 1)), value(&b, x)); break;
    case 11: put_write(&b, value(&b, x), by_0()); break;
    case 12: put_assign(&b, whole(&b, p), binary(&b, '&', boolean(&b, false), value(&b, p))); break;
    case 13: put_assign(&b, whole(&b, p), binary(&b, '|', boolean(&b, true), value(&b, p))); break;
    case 14: put_assign(&b, whole(&b, x), value(&b, y)); break;
    case 15: put_assign(&b, element(&b, whole(&b, a), value(&b, y)), value(&b, y)); break;
    case 16: put_assign(&b, whole(&b, n), value_at(&b, element(&b, whole(&b, a), value(&b, y)))); break;
    case 17: put_assign(&b, whole(&b, u), value(&b, v)); break;
    case 18: put_assign(&b, whole(&b, p), binary(&b, '=', value(&b, u), value(&b, v))); break;
    case 19: put_call(&b, TAKE, 1, value(&b, x)); break;
    case 20: put_call(&b, LARGE, 1, value(&b, x)); break;
    case 21: put_call(&b, LARGE, 1, value(&b, y)); break;
    case 22: put_call(&b, BIND, 1, whole(&b, x)); break;
    case 23: put_call(&b, BIND, 1, element(&b, whole(&b, a), value(&b, x))); break;
    default: /* openers: a guard that is unset, and one after a true one */
        (which % 4 == 0 ? put_if : which % 4 == 1 ? put_while : which % 4 == 2 ? put_when : put_cycle)(&b);
        if (which >= 28)
            arm_skips(boolean(&b, true));
        arm_skips(value(&b, p));
        put_end(&b);
    }
}

static bool retrievals(void)
{
    /* what the step answers under 0 and under 1 */
    static const uint8_t expected[][2] = {
        {31, 0},  {31, 17}, {17, 17}, {31, 18}, {18, 18}, {31, 17}, {31, 21}, {31, 0},  {31, 0},  {31, 0},  {31, 21},
        {31, 17}, {31, 0},  {31, 0},  {0, 0},   {0, 0},   {31, 0},  {31, 0},  {31, 0},  {31, 0},  {31, 22}, {22, 22},
        {0, 0},   {31, 18}, {31, 0},  {31, 0},  {31, 1},  {31, 1},  {0, 0},   {0, 0},   {0, 0},   {0, 0}};
    for (int which = 0; which < (int)(sizeof expected / sizeof *expected); which++)
        for (uint32_t number = 0; number < 2; number++) {
            uint8_t answer = expected[which][number];
            begin_retrievals();
            put_retrieval(which);
            end_body(&b);
            if (!is_begun(number) || !advances(1) || !(answer >= JOYCE_FAILURE ? fails(1, answer) : answers(1, answer)))
                return bad("statement %d, begun with %u: it does not answer %u", which, (unsigned)number, answer);
        }
    return true;
}

/* ---- structured values */

/* u.f := 1; v := u: one word of u has no value. It has once u.g := 2 is done. */
static bool parts(void)
{
    for (int is_whole = 0; is_whole < 2; is_whole++) {
        begin_retrievals();
        put_assign(&b, field(&b, whole(&b, u), 0), integer(&b, 1));
        put_assign(&b, whole(&b, n), value_at(&b, field(&b, whole(&b, u), 0)));
        if (is_whole)
            put_assign(&b, field(&b, whole(&b, u), 1), integer(&b, 2));
        put_assign(&b, whole(&b, v), value(&b, u));
        end_body(&b);
        if (!is_begun(JOYCE_START_UNSET) || !advances(3 + is_whole) || !looks(1, u, 0, JOYCE_WORD + 1) || !looks(1, v, 0, 32) || !looks(1, v, 1, 32))
            return false;
        if (is_whole ? !advances(1) || !looks(1, v, 0, JOYCE_WORD + 1) || !looks(1, v, 1, JOYCE_WORD + 2) || !looks(1, u, 1, JOYCE_WORD + 2)
                     : !fails(1, 31) || !looks(1, u, 1, 32) || !looks(1, v, 0, 32) || !looks(1, v, 1, 32))
            return false;
        if (!looks(1, a, 2, 32) || !looks(1, w, 0, 32) || !looks(1, u, 2, JOYCE_ABSENT))
            return false;
    }
    return true;
}

/* u = v where the first words differ already and the second ones are unset; and the left one is retrieved whole before the right one is selected. */
static bool comparisons(void)
{
    for (int is_left = 0; is_left < 2; is_left++) {
        begin_retrievals();
        for (int i = 0; i < 2; i++) {
            put_assign(&b, field(&b, whole(&b, is_left ? v : u), i), integer(&b, 7));
            if (i == 0)
                put_assign(&b, field(&b, whole(&b, is_left ? u : v), 0), integer(&b, 8));
        }
        put_assign(&b, whole(&b, p), binary(&b, '=', value(&b, u), value(&b, v)));
        end_body(&b);
        if (!is_begun(JOYCE_START_UNSET) || !advances(4) || !fails(1, 31) || !looks(1, p, 0, 32))
            return bad("the second word of the %s record is unset", is_left ? "left" : "right");
    }
    for (int is_set = 0; is_set < 2; is_set++) {
        start_table(&b);
        int pair = record_type(&b, 2, INTEGER, INTEGER), list = array_type(&b, INTEGER, pair, 1, 2);
        add_program(&b);
        int left = add_local(&b, 0, pair), right = add_local(&b, 0, list), q = add_local(&b, 0, BOOLEAN);
        begin_body(&b, 0);
        for (int i = 0; i <= is_set; i++)
            put_assign(&b, field(&b, whole(&b, left), i), integer(&b, 7));
        put_assign(&b, whole(&b, q), binary(&b, '=', value(&b, left), value_at(&b, element(&b, whole(&b, right), integer(&b, 3)))));
        end_body(&b);
        if (!is_begun(JOYCE_START_UNSET) || !advances(1 + is_set) || !fails(1, is_set ? JOYCE_INDEX : 31))
            return false;
    }
    return true;
}

/* ---- parameters and frames */

/* A var parameter is another name: set(x) gives x a value, get(x) retrieves it; binding does neither. */
static bool var_parameters(void)
{
    begin_retrievals();
    put_call(&b, BIND, 1, whole(&b, x));
    put_call(&b, GET, 1, whole(&b, x));
    end_body(&b);
    if (!is_begun(JOYCE_START_UNSET) || !advances(5) || !looks(1, x, 0, 32) || !fails(1, 31) || !looks(1, x, 0, 32))
        return false;
    begin_retrievals();
    put_call(&b, SET, 1, field(&b, whole(&b, u), 1));
    put_call(&b, SET, 1, element(&b, whole(&b, a), value(&b, y)));
    put_call(&b, GET, 1, field(&b, whole(&b, u), 1));
    put_assign(&b, whole(&b, x), value_at(&b, element(&b, whole(&b, a), integer(&b, 3))));
    end_body(&b);
    return is_begun(JOYCE_START_UNSET) && advances(1 + 3 * 3 + 1) && looks(1, u, 0, 32) && looks(1, u, 1, JOYCE_WORD + 5) && looks(1, a, 1, 32) &&
           looks(1, a, 2, JOYCE_WORD + 5) && looks(1, n, 0, JOYCE_WORD + 5) && looks(1, x, 0, JOYCE_WORD + 5) && answers(1, JOYCE_ENDED);
}

/*  var n: integer
 *  procedure fill(k: integer) var l: integer begin l := k; n := l end
 *  procedure peek(k: integer) var l: integer begin n := k; n := l end
 *  begin fill(7); peek(8) end: peek's frame stands where fill's stood. */
static bool frames_made_anew(void)
{
    for (uint32_t number = 0; number < 2; number++) {
        start_table(&b);
        int k[2], l[2], m = add_local(&b, add_program(&b), INTEGER);
        for (int i = 0; i < 2; i++)
            add_procedure(&b, 0);
        for (int i = 0; i < 2; i++) {
            k[i] = add_value_parameter(&b, 1 + i, INTEGER);
            l[i] = add_local(&b, 1 + i, INTEGER);
        }
        begin_body(&b, 0);
        for (int i = 0; i < 2; i++)
            put_call(&b, 1 + i, 1, integer(&b, 7 + i));
        end_body(&b);
        begin_body(&b, 1);
        put_assign(&b, whole(&b, l[0]), value(&b, k[0]));
        put_assign(&b, whole(&b, m), value(&b, l[0]));
        end_body(&b);
        begin_body(&b, 2);
        put_assign(&b, whole(&b, m), value(&b, k[1]));
        put_assign(&b, whole(&b, m), value(&b, l[1]));
        end_body(&b);
        if (!is_begun(number) || !advances(4) || !looks(1, m, 0, JOYCE_WORD + 7) || !advances(2) || !looks(1, m, 0, JOYCE_WORD + 8))
            return false;
        if (number == 0 ? !fails(1, 31) || !looks(1, m, 0, JOYCE_WORD + 8) : !advances(1) || !looks(1, m, 0, JOYCE_WORD))
            return false;
    }
    return true;
}

/*  procedure again(d: integer) var l: integer
 *  begin if d = 0 do n := l else true do l := d; again(d - 1); n := l end end
 *  begin again(2) end: the innermost instance has given its own l no value. Under 1 all come to their ends, and the outermost one's l is 2. */
static bool recursion(void)
{
    for (uint32_t number = 0; number < 2; number++) {
        start_table(&b);
        int m = add_local(&b, add_program(&b), INTEGER), again = add_procedure(&b, 0);
        int d = add_value_parameter(&b, again, INTEGER), l = add_local(&b, again, INTEGER);
        set_space(&b, 0, 2 * (JOYCE_CALL_WORDS + 2) * 2); /* two calls beyond the first */
        begin_body(&b, 0);
        put_call(&b, again, 1, integer(&b, 2));
        end_body(&b);
        begin_body(&b, again);
        put_if(&b);
        put_arm(&b, binary(&b, '=', value(&b, d), integer(&b, 0)));
        put_assign(&b, whole(&b, m), value(&b, l));
        put_arm(&b, boolean(&b, true));
        put_assign(&b, whole(&b, l), value(&b, d));
        put_call(&b, again, 1, binary(&b, '-', value(&b, d), integer(&b, 1)));
        put_assign(&b, whole(&b, m), value(&b, l));
        put_end(&b);
        end_body(&b);
        if (!is_begun(number) || !advances(1 + 3 + 3 + 1))
            return false;
        if (number == 0 ? !fails(1, 31) || !looks(1, m, 0, 32)
                        : !advances(3) || !looks(1, m, 0, JOYCE_WORD) || !advances(1) || !looks(1, m, 0, JOYCE_WORD + 1) || !advances(3) ||
                              !looks(1, m, 0, JOYCE_WORD + 2))
            return false;
    }
    return true;
}

/* ---- processes
 *
 *     process chip(k: integer)
 *       var own: integer
 *       procedure take(q: integer) begin own := q end
 *     begin when k = 1: own := own end end
 *     var c, d: chip; x: integer */

enum { CHIP = 1, CHIP_TAKE = 2 };
static int chip_k, chip_own, c, d;

static void begin_chip(void)
{
    start_table(&b);
    int type = process_type(&b, CHIP);
    add_program(&b);
    add_module(&b);
    add_procedure(&b, CHIP);
    c = add_local(&b, 0, type);
    d = add_local(&b, 0, type);
    x = add_local(&b, 0, INTEGER);
    chip_k = add_value_parameter(&b, CHIP, INTEGER);
    chip_own = add_local(&b, CHIP, INTEGER);
    int q = add_value_parameter(&b, CHIP_TAKE, INTEGER);
    begin_body(&b, CHIP);
    put_when(&b);
    put_arm(&b, binary(&b, '=', value(&b, chip_k), integer(&b, 1)));
    put_assign(&b, whole(&b, chip_own), value(&b, chip_own));
    put_end(&b);
    end_body(&b);
    begin_body(&b, CHIP_TAKE);
    put_assign(&b, whole(&b, chip_own), value(&b, q));
    end_body(&b);
    begin_body(&b, 0);
}

/* A reference that was never given a process: 31, and under 1, where it is empty, 19; its value can be assigned under 1. */
static bool references(void)
{
    for (uint32_t number = 0; number < 2; number++)
        for (int which = 0; which < 3; which++) {
            begin_chip();
            if (which == 0)
                put_start(&b, whole(&b, c), 1, by_0()); /* the reference comes before the argument */
            else if (which == 1)
                put_process_call(&b, whole(&b, c), CHIP_TAKE, 1, by_0());
            else
                put_assign(&b, whole(&b, d), value(&b, c));
            end_body(&b);
            if (!is_begun(number) || !(number == 0 ? fails(1, 31) : which < 2 ? fails(1, JOYCE_EMPTY) : advances(1) && looks(1, d, 0, JOYCE_WORD)))
                return bad("statement %d, begun with %u", which, (unsigned)number);
        }
    return true;
}

/* A create gives its variable a value, and its process variables by the number; the start gives the parameters values and no other. The number
 * holds in later calls too: every step here is a call. */
static bool creates(void)
{
    for (uint32_t number = 0; number < 2; number++) {
        begin_chip();
        put_create(&b, whole(&b, c));
        put_assign(&b, whole(&b, d), value(&b, c));
        put_start(&b, whole(&b, d), 1, integer(&b, 1));
        end_body(&b);
        if (!is_begun(number) || !looks(1, c, 0, number ? JOYCE_WORD : 32) || !advances(1) || !looks(1, c, 0, JOYCE_WORD + 2))
            return false;
        if (!looks(1, d, 0, number ? JOYCE_WORD : 32) || !looks(2, chip_k, 0, JOYCE_ABSENT) || !advances(2))
            return false;
        if (!looks(2, chip_k, 0, JOYCE_WORD + 1) || !looks(2, chip_own, 0, number ? JOYCE_WORD : 32) || !answers(2, JOYCE_DONE))
            return false;
        if (!(number ? answers(2, JOYCE_DONE) : fails(2, 31)))
            return false;
    }
    return true;
}

/* A process call that waits does so before its arguments are met. Then it is 31. */
static bool waiting_calls(void)
{
    begin_chip();
    put_create(&b, whole(&b, c));
    put_start(&b, whole(&b, c), 1, integer(&b, 0));
    put_process_call(&b, whole(&b, c), CHIP_TAKE, 1, value(&b, x));
    end_body(&b);
    return is_begun(JOYCE_START_UNSET) && advances(2) && answers(1, JOYCE_WAITS) && answers(1, JOYCE_WAITS) && answers(2, JOYCE_WAITS) &&
           looks(2, chip_own, 0, 32) && fails(1, 31);
}

/* A create that fails with 24 leaves its variable without a value. */
static bool failing_creates(void)
{
    begin_chip();
    put_while(&b);
    put_arm(&b, binary(&b, '<', device(&b, integer(&b, -2)), integer(&b, 63)));
    put_create(&b, whole(&b, c));
    put_write(&b, integer(&b, -2), binary(&b, '+', device(&b, integer(&b, -2)), integer(&b, 1)));
    put_end(&b);
    put_create(&b, whole(&b, d));
    end_body(&b);
    return is_begun(JOYCE_START_UNSET) && advances(63 * 4 + 1) && looks(1, c, 0, JOYCE_WORD + 64) && looks(1, d, 0, 32) && fails(1, JOYCE_PROCESSES) &&
           looks(1, d, 0, 32);
}

/* ---- the bytes of begin */

/* No mark is set under 0, and all are under 1; else the number alone differs. */
static bool begun_marks(void)
{
    static struct run_state unset, zeros;
    for (size_t i = 0; i < 200 / SHARE; i++) {
        struct table t = table_of(JOYCE_ACCEPTED, i);
        if (!begin_with(&unset, t, JOYCE_START_UNSET) || !begin_with(&zeros, t, JOYCE_START_ZEROS))
            return false;
        for (size_t location = 0; location < 16384; location++)
            if (is_marked(unset.state, location) || !is_marked(zeros.state, location))
                return bad("the mark of location %zu", location);
        if (unset.state[2 * NUMBER_WORD] != 0 || zeros.state[2 * NUMBER_WORD] != 1)
            return bad("the number is not in the state");
        zeros.state[2 * NUMBER_WORD] = 0;
        if (memcmp(unset.state, zeros.state, MARKS) != 0)
            return bad("other bytes differ than marks and number");
    }
    return true;
}

/* Of a frame the links and parameters are marked, the other variables by the number; the words around it keep their marks. */
static bool frame_marks(void)
{
    for (uint32_t number = 0; number < 2; number++) {
        start_table(&b);
        int m = add_local(&b, add_program(&b), INTEGER), own = add_procedure(&b, 0);
        add_value_parameter(&b, own, INTEGER);
        add_var_parameter(&b, own, INTEGER);
        add_local(&b, own, array_type(&b, INTEGER, INTEGER, 1, 20));
        begin_body(&b, 0);
        put_call(&b, own, 2, integer(&b, 1), whole(&b, m));
        end_body(&b);
        begin_body(&b, own);
        put_skip(&b);
        end_body(&b);
        if (!is_begun(number))
            return false;
        memset(r.state + MARKS, number ? 0 : 255, 5); /* all 40 marks are the other way round */
        if (!advances(1))
            return false;
        for (size_t i = 0; i < 40; i++) { /* word 0 is m; then 4 links, 2 parameters, 20 locals; then words not in use */
            bool is_given = i >= 1 && i <= 6, is_local = i >= 7 && i <= 26;
            if (is_marked(r.state, i) != (is_given || (is_local ? number == 1 : number == 0)))
                return bad("begun with %u, the mark of word %zu", (unsigned)number, i);
        }
    }
    return true;
}

/* Of a created process all 256 words are marked by the number, whatever their marks were; those of others are kept. */
static bool created_marks(void)
{
    for (uint32_t number = 0; number < 2; number++) {
        begin_chip();
        put_create(&b, whole(&b, c));
        end_body(&b);
        if (!is_begun(number))
            return false;
        memset(r.state + MARKS, number ? 0 : 255, sizeof r.state - MARKS);
        if (!advances(1))
            return false;
        for (size_t i = 0; i < 16384; i++)
            if (is_marked(r.state, i) != (i == 0 || (i / 256 == 1 ? number == 1 : number == 0)))
                return bad("begun with %u, the mark of word %zu of process %zu", (unsigned)number, i % 256, i / 256 + 1);
    }
    return true;
}

void unset_tests(void)
{
    run_test("unset_sound_unit_forgets", sound_unit_forgets);
    run_test("unset_sound_unit_mended", sound_unit_mended);
    run_test("unset_retrievals", retrievals);
    run_test("unset_parts", parts);
    run_test("unset_comparisons", comparisons);
    run_test("unset_var_parameters", var_parameters);
    run_test("unset_frames_made_anew", frames_made_anew);
    run_test("unset_recursion", recursion);
    run_test("unset_references", references);
    run_test("unset_creates", creates);
    run_test("unset_waiting_calls", waiting_calls);
    run_test("unset_failing_creates", failing_creates);
    run_test("unset_begun_marks", begun_marks);
    run_test("unset_frame_marks", frame_marks);
    run_test("unset_created_marks", created_marks);
}
