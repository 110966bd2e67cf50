/* The edges of 01, starred and others, one test each: by check, begin, run and look. Where an edge names a number it stands here as in 01, so
 * that the names of joyce.h are tried too. */
#include "builder.h"
#include "support.h"
#include "tests.h"

#include <string.h>

static struct builder b;
static struct run_state r;
static uint8_t bytes[JOYCE_ACCEPTED_MAX];

/* ---- a program that is accepted and begun, its turns, its words */

static bool is_begun(void)
{
    struct table t = {bytes, finish_table(&b, bytes, sizeof bytes), JOYCE_ACCEPTED};
    uint32_t verdict = joyce_check(t.bytes, t.length);
    if (verdict != 0)
        return bad("the verdict is %u", (unsigned)verdict);
    return begin(&r, t);
}

static bool answers(uint8_t process, uint8_t answer)
{
    uint8_t given;
    if (!run_turns(&r, &process, 1, &given))
        return false;
    return given == answer || bad("process %u answered %u, not %u", process, given, answer);
}

static uint32_t look(int process, int variable, int place)
{
    return joyce_look(r.table.bytes, r.table.length, r.state, sizeof r.state, (uint32_t)process, (uint32_t)variable, (uint32_t)place);
}

static bool holds(int process, int variable, int place, int word)
{
    uint32_t seen = look(process, variable, place);
    if (seen < JOYCE_WORD)
        return bad("look at place %d of variable %d returned %u", place, variable, (unsigned)seen);
    if (seen - JOYCE_WORD != ((uint32_t)word & 0xffffu))
        return bad("place %d of variable %d is %d, not %d", place, variable, joyce_integer(seen), word);
    return true;
}

/* ---- operators and transfers: n := 9; n := expression */

enum { OLD = 9 };
static int n;

static void begin_program(int type)
{
    start_table(&b);
    add_program(&b);
    n = add_local(&b, 0, type);
    begin_body(&b, 0);
    put_assign(&b, whole(&b, n), type == CHARACTER ? character(&b, OLD) : integer(&b, OLD));
}

/* The next step is n := expression. */
static bool is_next(int expression)
{
    put_assign(&b, whole(&b, n), expression);
    end_body(&b);
    return is_begun() && answers(1, JOYCE_DONE) && holds(1, n, 0, OLD);
}

static bool gives(int word)
{
    return answers(1, JOYCE_DONE) && holds(1, n, 0, word) && answers(1, JOYCE_ENDED);
}

/* The step fails, n is as it was, and the run stays failed. */
static bool fails(uint8_t number)
{
    return answers(1, number) && holds(1, n, 0, OLD) && answers(1, number);
}

static bool minus_384_divided_by_256(void)
{
    begin_program(INTEGER);
    return is_next(binary(&b, '/', integer(&b, -384), integer(&b, 256))) && gives(-1);
}

static bool minus_7_mod_2(void)
{
    begin_program(INTEGER);
    return is_next(binary(&b, '%', integer(&b, -7), integer(&b, 2))) && gives(-1);
}

static bool least_divided_by_minus_1(void)
{
    begin_program(INTEGER);
    return is_next(binary(&b, '/', integer(&b, -32768), integer(&b, -1))) && fails(16);
}

static bool least_mod_minus_1(void)
{
    begin_program(INTEGER);
    return is_next(binary(&b, '%', integer(&b, -32768), integer(&b, -1))) && gives(0);
}

static bool five_divided_by_0(void)
{
    begin_program(INTEGER);
    return is_next(binary(&b, '/', integer(&b, 5), integer(&b, 0))) && fails(17);
}

static bool not_0(void)
{
    begin_program(INTEGER);
    return is_next(inverse(&b, integer(&b, 0))) && gives(-1);
}

static bool character_127(void)
{
    begin_program(CHARACTER);
    return is_next(transfer(&b, integer(&b, 127), CHARACTER)) && gives(127);
}

static bool character_128(void)
{
    begin_program(CHARACTER);
    return is_next(transfer(&b, integer(&b, 128), CHARACTER)) && fails(23);
}

/* ---- val */

/* The first word of the page is 4660, 52 + 18 * 256, and all others -1. */
static void hand_over_page(void)
{
    memset(r.page, 0xff, sizeof r.page);
    r.page[0] = 52;
    r.page[1] = 18;
}

static bool val_minus_8192(void)
{
    begin_program(INTEGER);
    if (!is_next(device(&b, integer(&b, -8192))))
        return false;
    hand_over_page();
    return gives(4660);
}

static bool val_minus_1(void)
{
    begin_program(INTEGER);
    if (!is_next(device(&b, integer(&b, -1))))
        return false;
    hand_over_page();
    return fails(21);
}

/* ---- indexes: a list of 1..100 */

enum { HUNDRED = 100, NEW = 70 };
static int list;

static void begin_list(void)
{
    begin_program(INTEGER);
    list = add_local(&b, 0, array_type(&b, INTEGER, INTEGER, 1, HUNDRED));
}

static int list_at(int index)
{
    return element(&b, whole(&b, list), integer(&b, index));
}

/* The element of that place, from 0, is new, and the others are 0. */
static bool list_has_new_at(int place)
{
    for (int i = 0; i < HUNDRED; i++)
        if (!holds(1, list, i, i == place ? NEW : 0))
            return false;
    return true;
}

/* list[index] := 70; n := list[index] */
static bool index_works(int index)
{
    begin_list();
    put_assign(&b, list_at(index), integer(&b, NEW));
    put_assign(&b, whole(&b, n), value_at(&b, list_at(index)));
    end_body(&b);
    return is_begun() && answers(1, JOYCE_DONE) && answers(1, JOYCE_DONE) && gives(NEW) && list_has_new_at(index - 1);
}

/* list[index] := 70, and in another run n := list[index] */
static bool index_fails(int index)
{
    begin_list();
    put_assign(&b, list_at(index), integer(&b, NEW));
    end_body(&b);
    if (!is_begun() || !answers(1, JOYCE_DONE) || !fails(18) || !list_has_new_at(-1))
        return false;
    begin_list();
    return is_next(value_at(&b, list_at(index))) && fails(18);
}

static bool index_1(void)
{
    return index_works(1);
}

static bool index_100(void)
{
    return index_works(100);
}

static bool index_0(void)
{
    return index_fails(0);
}

static bool index_101(void)
{
    return index_fails(101);
}

/* ---- words of a type: an array of integers, and a record of two arrays, the first of 100 words */

static int big;

/* n := 9; the last word of big := 70 */
static void begin_big(int words, bool is_record)
{
    int first = is_record ? HUNDRED : 0;
    begin_program(INTEGER);
    int type = array_type(&b, INTEGER, INTEGER, 1, words - first);
    if (is_record)
        type = record_type(&b, 2, array_type(&b, INTEGER, INTEGER, 1, first), type);
    big = add_local(&b, 0, type);
    int part = is_record ? field(&b, whole(&b, big), 1) : whole(&b, big);
    put_assign(&b, element(&b, part, integer(&b, words - first)), integer(&b, NEW));
    end_body(&b);
}

static bool type_of_200_words(void)
{
    for (int is_record = 0; is_record < 2; is_record++) {
        begin_big(200, is_record);
        if (!is_begun() || !answers(1, JOYCE_DONE) || !answers(1, JOYCE_DONE) || !answers(1, JOYCE_ENDED))
            return false;
        for (int place = 0; place < 200; place++)
            if (!holds(1, big, place, place == 199 ? NEW : 0))
                return false;
        if (look(1, big, 200) != JOYCE_ABSENT)
            return bad("it has a word more");
    }
    return true;
}

/* Each call refuses the table, and leaves every byte; the state is one of 200 words. */
static bool type_of_201_words(void)
{
    static const uint8_t turn = 1, answer = 0;
    for (int is_record = 0; is_record < 2; is_record++) {
        begin_big(200, is_record);
        if (!is_begun())
            return false;
        begin_big(201, is_record);
        r.table = (struct table){bytes, finish_table(&b, bytes, sizeof bytes), JOYCE_SIZES};
        struct lent lent = lend(&r, &turn, 1, &answer);
        for (int which = CHECK; which <= LOOK; which++)
            if (!is_refused((enum call)which, &lent, 7))
                return false;
    }
    return true;
}

/* ---- creates: references to processes of a module that sets its mark */

static int references, mark;

static int reference_at(int index)
{
    return element(&b, whole(&b, references), integer(&b, index));
}

/* create references[1]; .. create references[count] */
static void begin_creates(int count)
{
    start_table(&b);
    int program = add_program(&b), module = add_module(&b);
    references = add_local(&b, program, array_type(&b, INTEGER, process_type(&b, module), 1, 64));
    mark = add_local(&b, module, INTEGER);
    begin_body(&b, module);
    put_assign(&b, whole(&b, mark), integer(&b, NEW));
    end_body(&b);
    begin_body(&b, program);
    for (int i = 1; i <= count; i++)
        put_create(&b, reference_at(i));
}

/* The first 63 creates give the numbers 2..64. */
static bool creates_work(void)
{
    for (int i = 1; i <= 63; i++)
        if (!answers(1, JOYCE_DONE) || !holds(1, references, i - 1, i + 1))
            return false;
    return true;
}

/* The process of the 63rd create is there, is started and runs to its end. */
static bool create_63(void)
{
    begin_creates(63);
    put_start(&b, reference_at(63), 0);
    end_body(&b);
    if (!is_begun() || !creates_work() || !answers(64, JOYCE_WAITS) || !answers(65, JOYCE_NO_PROCESS))
        return false;
    return answers(1, JOYCE_DONE) && answers(64, JOYCE_DONE) && holds(64, mark, 0, NEW) && answers(64, JOYCE_ENDED);
}

static bool create_64(void)
{
    begin_creates(64);
    end_body(&b);
    return is_begun() && creates_work() && answers(1, 24) && holds(1, references, 63, 0) && answers(64, 24);
}

/* ---- a call on one's own reference */

enum { COUNTER = 1, ADD = 2 };
static int own, counted;

/* The program creates a counter and hands it the reference to itself; the counter calls its own procedure by it. */
static void write_selfish_counter(void)
{
    start_table(&b);
    int type = process_type(&b, COUNTER), reference = add_local(&b, add_program(&b), type);
    add_procedure(&b, add_module(&b));
    own = add_value_parameter(&b, COUNTER, type);
    counted = add_local(&b, COUNTER, INTEGER);
    begin_body(&b, 0);
    put_create(&b, whole(&b, reference));
    put_start(&b, whole(&b, reference), 1, value(&b, reference));
    end_body(&b);
    begin_body(&b, COUNTER);
    put_process_call(&b, whole(&b, own), ADD, 0);
    end_body(&b);
    begin_body(&b, ADD);
    put_assign(&b, whole(&b, counted), binary(&b, '+', value(&b, counted), integer(&b, 1)));
    end_body(&b);
}

/* For ever: once the program has ended, no turn of either process changes a byte, and what a step does depends on these bytes alone. */
static bool call_on_own_reference(void)
{
    static struct run_state before;
    write_selfish_counter();
    if (!is_begun() || !answers(1, JOYCE_DONE) || !answers(1, JOYCE_DONE) || !answers(2, JOYCE_WAITS) || !answers(1, JOYCE_ENDED))
        return false;
    before = r;
    for (int i = 0; i < 1000; i++)
        if (!answers(2, JOYCE_WAITS) || !answers(1, JOYCE_ENDED))
            return false;
    if (memcmp(before.state, r.state, sizeof r.state) != 0 || memcmp(before.page, r.page, sizeof r.page) != 0)
        return bad("a waiting call changed something");
    return holds(2, own, 0, 2) && holds(2, counted, 0, 0);
}

/* ---- the listing: its table, its schedule, and the verdict and answers that it prints */

static bool listing(void)
{
    static const uint8_t table[] = {0x00, 0x00, 0x00, 0x01, 0, 0, 0, 0, 0, 0, 0, 0, 0x00, 0x00, 0x02, 0, 0, 0, 0, 0, 0, 0x0d, 0, 0, 0, 0, 0};
    static const uint8_t schedule[] = {1, 1, 1, 2}, expected[] = {0, 2, 2, 3};
    uint8_t given[4];
    uint32_t verdict = joyce_check(table, sizeof table);
    if (verdict != 0)
        return bad("the verdict is %u", (unsigned)verdict);
    if (!begin(&r, (struct table){table, sizeof table, verdict}) || !run_turns(&r, schedule, sizeof schedule, given))
        return false;
    for (int i = 0; i < 4; i++)
        if (given[i] != expected[i])
            return bad("step %d, process %u, answered %u, not %u", i + 1, schedule[i], given[i], expected[i]);
    return true;
}

void edge_tests(void)
{
    run_test("edge_minus_384_divided_by_256", minus_384_divided_by_256);
    run_test("edge_minus_7_mod_2", minus_7_mod_2);
    run_test("edge_least_divided_by_minus_1", least_divided_by_minus_1);
    run_test("edge_least_mod_minus_1", least_mod_minus_1);
    run_test("edge_5_divided_by_0", five_divided_by_0);
    run_test("edge_not_0", not_0);
    run_test("edge_character_127", character_127);
    run_test("edge_character_128", character_128);
    run_test("edge_val_minus_8192", val_minus_8192);
    run_test("edge_val_minus_1", val_minus_1);
    run_test("edge_index_1", index_1);
    run_test("edge_index_100", index_100);
    run_test("edge_index_0", index_0);
    run_test("edge_index_101", index_101);
    run_test("edge_type_of_200_words", type_of_200_words);
    run_test("edge_type_of_201_words", type_of_201_words);
    run_test("edge_create_63", create_63);
    run_test("edge_create_64", create_64);
    run_test("edge_call_on_own_reference", call_on_own_reference);
    run_test("edge_listing", listing);
}
