/* Title strings: string constants, strings that are filled or cut as value arguments, and tables with and without an eighth section. */
#include "builder.h"
#include "reader.h"
#include "support.h"
#include "tests.h"

#include <string.h>

enum { SCREEN = -1024, WORDS = 8 };

static struct builder b;
static struct run_state r;
static uint8_t bytes[JOYCE_ACCEPTED_MAX + 1];

/* ---- a program that is begun, its turns, its words */

static bool is_begun(uint32_t number)
{
    struct table t = {bytes, finish_table(&b, bytes, sizeof bytes), JOYCE_ACCEPTED};
    uint32_t verdict = joyce_check(t.bytes, t.length);
    if (t.length == 0 || verdict != 0)
        return bad("the verdict is %u%s%s", (unsigned)verdict, t.length ? "" : ": ", t.length ? "" : builder_mistake(&b));
    return begin_with(&r, t, number);
}

static bool answers(uint8_t process, uint8_t answer)
{
    uint8_t given;
    if (!run_turns(&r, &process, 1, &given))
        return false;
    return given == answer || bad("process %u answered %u, not %u", process, given, answer);
}

static bool advances(int steps)
{
    while (steps-- > 0)
        if (!answers(1, JOYCE_DONE))
            return false;
    return true;
}

static bool looks(int variable, int place, uint32_t expected)
{
    uint32_t seen = joyce_look(r.table.bytes, r.table.length, r.state, sizeof r.state, 1, (uint32_t)variable, (uint32_t)place);
    return seen == expected || bad("look at variable %d, place %d: %u, not %u", variable, place, (unsigned)seen, (unsigned)expected);
}

static int string_type(int length)
{
    return array_type(&b, INTEGER, CHARACTER, 1, length);
}

static int letter(int string, int index)
{
    return element(&b, whole(&b, string), index);
}

/* The screen has these characters, and 0 after them. */
static bool screen_shows(const char *title)
{
    for (int i = 0; i < WORDS; i++) {
        int word = joyce_get(r.page, SCREEN + 2 * i), expected = i < (int)strlen(title) ? title[i] : 0;
        if (word != expected)
            return bad("the screen has %d at word %d, not %d", word, i, expected);
    }
    return true;
}

/* ---- a title is drawn word by word
 *
 *     procedure draw(title: line) var i: integer
 *     begin i := 1; while i <= WORDS do write(screen - 2 + 2 * i, title[i]: integer); i := i + 1 end end */

static void write_draw(int procedure, int title, int i)
{
    begin_body(&b, procedure);
    put_assign(&b, whole(&b, i), integer(&b, 1));
    put_while(&b);
    put_arm(&b, binary(&b, 'l', value(&b, i), integer(&b, WORDS)));
    put_write(&b, binary(&b, '+', integer(&b, SCREEN - 2), binary(&b, '*', integer(&b, 2), value(&b, i))),
              transfer(&b, value_at(&b, letter(title, value(&b, i))), INTEGER));
    put_assign(&b, whole(&b, i), binary(&b, '+', value(&b, i), integer(&b, 1)));
    put_end(&b);
    end_body(&b);
}

/* A call of draw: each write changes one word, and its end leaves what was passed. */
static bool is_drawn(const char *title)
{
    if (!advances(2)) /* into the call, and i := 1 */
        return false;
    for (int i = 0; i < WORDS; i++) {
        joyce_put(r.page, SCREEN + 2 * i, -1);
        if (!advances(2) || joyce_get(r.page, SCREEN + 2 * i) != (i < (int)strlen(title) ? title[i] : 0))
            return bad("word %d is %d", i, joyce_get(r.page, SCREEN + 2 * i));
        if (!advances(2))
            return false;
    }
    return advances(2) && screen_shows(title);
}

static bool drawn_word_by_word(void)
{
    static const char *const titles[] = {"Joyce", "go", "BRINCHHANSEN", "A", "12345678"};
    static const char *const drawn[] = {"Joyce", "go", "BRINCHHA", "A", "12345678"};
    start_table(&b);
    int line = string_type(WORDS), program = add_program(&b), draw = add_procedure(&b, program);
    int title = add_value_parameter(&b, draw, line), i = add_local(&b, draw, INTEGER);
    write_draw(draw, title, i);
    begin_body(&b, program);
    for (int k = 0; k < 5; k++)
        put_call(&b, draw, 1, text(&b, titles[k]));
    end_body(&b);
    if (!is_begun(JOYCE_START_UNSET))
        return false;
    for (int k = 0; k < 5; k++)
        if (!is_drawn(drawn[k]))
            return false;
    return answers(1, JOYCE_ENDED);
}

/* The same by a process call: process chip procedure draw .. begin when false do skip end end */
static bool drawn_by_a_chip(void)
{
    start_table(&b);
    int line = string_type(WORDS), chip_type = process_type(&b, 1), program = add_program(&b), chip = add_module(&b);
    int reference = add_local(&b, program, chip_type), draw = add_procedure(&b, chip);
    int title = add_value_parameter(&b, draw, line), i = add_local(&b, draw, INTEGER);
    write_draw(draw, title, i);
    begin_body(&b, chip);
    put_when(&b);
    put_arm(&b, boolean(&b, false));
    put_skip(&b);
    put_end(&b);
    end_body(&b);
    begin_body(&b, program);
    put_create(&b, whole(&b, reference));
    put_start(&b, whole(&b, reference), 0);
    put_process_call(&b, whole(&b, reference), draw, 1, text(&b, "Sprites"));
    put_process_call(&b, whole(&b, reference), draw, 1, text(&b, "and bells"));
    end_body(&b);
    return is_begun(JOYCE_START_UNSET) && advances(2) && answers(1, JOYCE_WAITS) && answers(2, JOYCE_WAITS) && is_drawn("Sprites")
        && is_drawn("and bell");
}

/* ---- equal, fitted */

/* v := left sign right, of constants; then what v is */
static bool compares(const char *left, size_t left_length, char sign, const char *right, size_t right_length, int expected)
{
    start_table(&b);
    int program = add_program(&b), v = add_local(&b, program, BOOLEAN);
    begin_body(&b, program);
    put_assign(&b, whole(&b, v), binary(&b, sign, text_of(&b, left, left_length), text_of(&b, right, right_length)));
    end_body(&b);
    return is_begun(JOYCE_START_UNSET) && advances(1) && looks(v, 0, JOYCE_WORD + (uint32_t)expected);
}

static bool odd_and_even_twins(void)
{
    static char tall[256];
    memset(tall, 'x', 127);
    return compares("abc", 3, '=', "abc", 4, 1) && compares("abc", 4, '=', "abc", 3, 1) && compares("abc", 3, '#', "abc", 4, 0)
        && compares("abc", 3, '=', "abd", 3, 0) && compares("abc", 3, '=', "abcd", 4, 0) && compares("a", 1, '=', "a", 2, 1)
        && compares("ab", 2, '#', "ba", 2, 1) && compares(tall, 127, '=', tall, 128, 1);
}

/* Every word is marked, the one that is added too. */
static bool assigned_marks(void)
{
    start_table(&b);
    int name = string_type(4), program = add_program(&b), v = add_local(&b, program, name), w = add_local(&b, program, name);
    begin_body(&b, program);
    put_assign(&b, whole(&b, v), text(&b, "end"));
    put_assign(&b, whole(&b, w), value(&b, v));
    end_body(&b);
    return is_begun(JOYCE_START_UNSET) && looks(v, 3, JOYCE_UNSET_WORD) && advances(2) && looks(v, 0, JOYCE_WORD + 'e')
        && looks(w, 2, JOYCE_WORD + 'd') && looks(w, 3, JOYCE_WORD);
}

/* The verdict on an assignment and a comparison of a string of 4 and a constant. */
static uint32_t verdict_with(bool is_assigned, const char *constant)
{
    start_table(&b);
    int name = string_type(4), program = add_program(&b), v = add_local(&b, program, name), is_same = add_local(&b, program, BOOLEAN);
    begin_body(&b, program);
    if (is_assigned)
        put_assign(&b, whole(&b, v), text(&b, constant));
    else
        put_assign(&b, whole(&b, is_same), binary(&b, '=', value(&b, v), text(&b, constant)));
    end_body(&b);
    return joyce_check(bytes, finish_table(&b, bytes, sizeof bytes));
}

static bool fitted_is_unfit_elsewhere(void)
{
    static const struct { const char *constant; uint32_t verdict; } tries[] = {
        {"a", 9}, {"ab", 9}, {"abc", 0}, {"abcd", 0}, {"abcde", 9}, {"abcdef", 9}};
    for (size_t i = 0; i < sizeof tries / sizeof *tries; i++)
        for (int is_assigned = 0; is_assigned < 2; is_assigned++)
            if (verdict_with(is_assigned, tries[i].constant) != tries[i].verdict)
                return bad("'%s' %s: the verdict is not %u", tries[i].constant, is_assigned ? "assigned" : "compared", (unsigned)tries[i].verdict);
    return true;
}

/* procedure p(s: array 1..to of char) begin c := s[at] end; p(v), where v: array 1..from of char has values up to `given` */
static int build_passing(int from, int to, int given, int at)
{
    start_table(&b);
    int longer = string_type(from), shorter = from == to ? longer : string_type(to), program = add_program(&b), p = add_procedure(&b, program);
    int v = add_local(&b, program, longer), c = add_local(&b, program, CHARACTER), s = add_value_parameter(&b, p, shorter);
    begin_body(&b, p);
    put_assign(&b, whole(&b, c), value_at(&b, letter(s, integer(&b, at))));
    end_body(&b);
    begin_body(&b, program);
    for (int i = 1; i <= given; i++)
        put_assign(&b, letter(v, integer(&b, i)), character(&b, 64 + i));
    put_call(&b, p, 1, value(&b, v));
    end_body(&b);
    return c;
}

/* A longer variable is retrieved whole before it is cut; a shorter one is filled, and all words of the parameter are marked. */
static bool variables_fitted(void)
{
    int c = build_passing(6, 2, 5, 2);
    if (!is_begun(JOYCE_START_UNSET) || !advances(5) || !answers(1, JOYCE_UNSET) || !answers(2, JOYCE_UNSET))
        return false;
    if (!is_begun(JOYCE_START_ZEROS) || !advances(7) || !looks(c, 0, JOYCE_WORD + 'B'))
        return false;
    c = build_passing(6, 2, 6, 2);
    if (!is_begun(JOYCE_START_UNSET) || !advances(8) || !looks(c, 0, JOYCE_WORD + 'B'))
        return false;
    c = build_passing(2, 6, 2, 6);
    if (!is_begun(JOYCE_START_UNSET) || !advances(4) || !looks(c, 0, JOYCE_WORD))
        return false;
    c = build_passing(2, 6, 1, 1);
    return is_begun(JOYCE_START_UNSET) && advances(1) && answers(1, JOYCE_UNSET) && looks(c, 0, JOYCE_UNSET_WORD);
}

/* A constant of 255 characters is cut to a parameter of 200, and the frame has its 200 words. */
static bool longest_constant_cut(void)
{
    enum { TOP = 16384 + 4 };
    static char tall[JOYCE_STRING_MAX];
    for (int i = 0; i < JOYCE_STRING_MAX; i++)
        tall[i] = (char)(i % 128);
    start_table(&b);
    int line = string_type(200), program = add_program(&b), p = add_procedure(&b, program), c = add_local(&b, program, CHARACTER);
    int s = add_value_parameter(&b, p, line);
    begin_body(&b, p);
    put_assign(&b, whole(&b, c), value_at(&b, letter(s, integer(&b, 200))));
    end_body(&b);
    begin_body(&b, program);
    put_call(&b, p, 1, text_of(&b, tall, sizeof tall));
    end_body(&b);
    if (!is_begun(JOYCE_START_UNSET) || !advances(1))
        return false;
    unsigned top = r.state[2 * TOP] + 256u * r.state[2 * TOP + 1];
    if (top != 1 + JOYCE_CALL_WORDS + 200)
        return bad("the frame ends at word %u", top);
    return advances(2) && looks(c, 0, JOYCE_WORD + 199 % 128);
}

/* ---- both lengths of table */

/* It ends after its statements. */
static bool has_seven_sections(struct table t)
{
    static const size_t sizes[] = {7, 1, 2, 8, 1, 5, 6};
    size_t at = 0;
    for (int i = 0; i < 7; i++) {
        if (at >= t.length)
            return false;
        at += 1 + t.bytes[at] * sizes[i];
    }
    return at == t.length;
}

static bool look_alike(const struct run_state *x, const struct run_state *y)
{
    for (uint32_t process = 1; process < 4; process++)
        for (uint32_t variable = 0; variable < 12; variable++) {
            uint32_t seen = joyce_look(x->table.bytes, x->table.length, x->state, sizeof x->state, process, variable, 0);
            if (seen != joyce_look(y->table.bytes, y->table.length, y->state, sizeof y->state, process, variable, 0))
                return bad("the looks at variable %u of process %u differ", (unsigned)variable, (unsigned)process);
        }
    return true;
}

/* Begun and run alike; and a state of the one goes on with the other. */
static bool run_alike(struct table t, struct table u)
{
    static struct run_state x, y;
    uint8_t turns[120], first[sizeof turns], second[sizeof turns];
    for (size_t i = 0; i < sizeof turns; i++)
        turns[i] = (uint8_t)(1 + below(4));
    for (uint32_t number = 0; number < 2; number++) {
        if (!begin_with(&x, t, number) || !begin_with(&y, u, number))
            return false;
        for (int round = 0; round < 2; round++) {
            if (!run_turns(&x, turns, sizeof turns, first) || !run_turns(&y, turns, sizeof turns, second))
                return false;
            if (memcmp(first, second, sizeof first) || memcmp(x.state, y.state, sizeof x.state) || memcmp(x.page, y.page, sizeof x.page))
                return bad("the runs differ");
            if (!look_alike(&x, &y))
                return false;
            x.table = u;
            y.table = t;
        }
    }
    return true;
}

static bool both_table_lengths(void)
{
    static uint8_t longer[JOYCE_TABLE_MAX + 1];
    size_t tried[2] = {0};
    seed = 79;
    for (size_t i = 0; i < table_count; i++) {
        struct table t = tables[i], u = {longer, t.length + 1, t.verdict};
        if (!has_seven_sections(t))
            continue;
        memcpy(longer, t.bytes, t.length);
        longer[t.length] = 0;
        uint32_t verdict = joyce_check(t.bytes, t.length), again = joyce_check(longer, t.length + 1);
        if (verdict != again)
            return bad("table %zu: the verdict is %u, and %u with a count of 0 after it", i, (unsigned)verdict, (unsigned)again);
        if (verdict == 0 && !run_alike(t, u))
            return false;
        tried[verdict == 0]++;
    }
    return (tried[0] > 10 && tried[1] > 1) || bad("%zu refused and %zu accepted tables have seven sections", tried[0], tried[1]);
}

void string_tests(void)
{
    run_test("strings_drawn_word_by_word", drawn_word_by_word);
    run_test("strings_drawn_by_a_chip", drawn_by_a_chip);
    run_test("strings_odd_and_even_twins", odd_and_even_twins);
    run_test("strings_assigned_marks", assigned_marks);
    run_test("strings_fitted_is_unfit_elsewhere", fitted_is_unfit_elsewhere);
    run_test("strings_variables_fitted", variables_fitted);
    run_test("strings_longest_constant_cut", longest_constant_cut);
    run_test("strings_both_table_lengths", both_table_lengths);
}
