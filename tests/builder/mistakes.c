/* The builder: each mistake is remembered, and finish_table says which call made it and why. A line 'ok builder/NAME' or 'FAIL builder/NAME'
 * a test; the sanitizers watch where the machine has them. */
#include "builder.h"
#include "joyce.h"

#include <limits.h>
#include <stdio.h>
#include <string.h>

static struct builder b;
static uint8_t bytes[JOYCE_TABLE_MAX];
static int failures, program, procedure, n;

/* A program with a local n and a procedure of two parameters, whose body ends with a skip; the body of the program is open. */
static void prepare(void)
{
    start_table(&b);                                             /* not counted */
    program = add_program(&b);                                   /* call 1 */
    n = add_local(&b, program, INTEGER);                         /* call 2 */
    procedure = add_procedure(&b, program);                      /* call 3 */
    add_value_parameter(&b, procedure, INTEGER);                 /* call 4 */
    add_var_parameter(&b, procedure, INTEGER);                   /* call 5 */
    begin_body(&b, procedure);                                   /* call 6 */
    put_skip(&b);                                                /* call 7 */
    end_body(&b);                                                /* call 8 */
    begin_body(&b, program);                                     /* call 9 */
    put_skip(&b);                                                /* call 10; a test's first call is 11 */
}

static void expect(const char *name, const char *mistake)
{
    size_t length = finish_table(&b, bytes, sizeof bytes);
    const char *said = builder_mistake(&b);
    if (length == 0 && said && strcmp(said, mistake) == 0) {
        printf("ok builder/%s\n", name);
        return;
    }
    printf("FAIL builder/%s: length %zu, verdict %u, mistake: %s\n", name, length, (unsigned)joyce_check(bytes, length), said ? said : "none");
    failures++;
}

/* ---- one mistake each */

/* The compiler chooses the order of the calls among arguments; here it has no choice. */
static void assign_to(int variable, int expression) { put_assign(&b, variable, expression); }
static void assign(int expression) { assign_to(whole(&b, n), expression); }
static void assign_one(int variable) { assign_to(variable, integer(&b, 1)); }

static void no_variable(void) { assign_one(whole(&b, 7)); }
static void no_variable_below(void) { assign_one(whole(&b, -1)); }
static void no_variable_value(void) { assign(value(&b, 300)); }
static void large_integer(void) { assign(integer(&b, 40000)); }
static void small_integer(void) { assign(integer(&b, -32769)); }
static void no_character(void) { assign(transfer(&b, character(&b, 128), INTEGER)); }
static void empty_text(void) { assign(text(&b, "")); }
static void no_text_character(void) { assign(text(&b, "caf\xe9")); }
static void long_text(void) { assign(text_of(&b, (const char[256]){0}, 256)); }
static void no_node(void) { put_assign(&b, 300, 300); }
static void no_operand(void) { assign(binary(&b, '+', integer(&b, 1), 300)); }
static void no_operator(void) { assign(binary(&b, '!', integer(&b, 1), integer(&b, 1))); }
static void no_field(void) { assign_one(field(&b, whole(&b, n), 300)); }
static void no_standard_type(void) { assign(transfer(&b, integer(&b, 1), 3)); }
static void wrong_sort(void) { assign_one(integer(&b, 1)); }
static void wrong_sort_too(void) { assign(whole(&b, n)); }
static void unused_node(void) { integer(&b, 1); put_skip(&b); end_body(&b); }

static void used_twice(void)
{
    int one = integer(&b, 1);
    put_assign(&b, whole(&b, n), binary(&b, '+', one, one));
}

static void no_block(void) { add_local(&b, 300, INTEGER); }
static void no_type(void) { add_local(&b, program, 9); }
static void no_element_type(void) { array_type(&b, INTEGER, 3, 1, 2); }
static void no_index_type(void) { array_type(&b, 3, INTEGER, 1, 2); }
static void large_bound(void) { array_type(&b, INTEGER, INTEGER, 1, 40000); }
static void no_owner(void) { add_procedure(&b, 300); }
static void owner_procedure(void) { add_procedure(&b, procedure); }
static void second_program(void) { add_program(&b); }
static void late_parameter(void) { add_value_parameter(&b, program, INTEGER); }

static void space_of_no_block(void) { set_space(&b, 300, 2); }
static void space_of_procedure(void) { set_space(&b, procedure, 2); }
static void odd_space(void) { set_space(&b, program, 7); }
static void large_space(void) { set_space(&b, program, 512); }
static void negative_space(void) { set_space(&b, program, -2); }

static void parameter_after_local(void)
{
    add_local(&b, procedure, INTEGER);
    add_value_parameter(&b, procedure, INTEGER);
}

static void no_module(void)
{
    process_type(&b, procedure);
    end_body(&b);
}

static void two_process_types(void)
{
    int module = add_module(&b);
    process_type(&b, module);
    process_type(&b, module);
    end_body(&b);
    begin_body(&b, module);
    put_skip(&b);
    end_body(&b);
}

/* ---- lists: what is announced is not what is given */

static void few_fields(void) { record_type(&b, 3, INTEGER); }
static void many_fields(void) { record_type(&b, 1, INTEGER, INTEGER, INTEGER); }
static void no_fields(void) { record_type(&b, 0); }
static void few_arguments(void) { put_call(&b, procedure, 2, integer(&b, 1)); }
static void many_arguments(void) { put_call(&b, procedure, 2, integer(&b, 1), whole(&b, n), whole(&b, n)); }
static void huge_count(void) { put_call(&b, procedure, INT_MAX); }
static void negative_count(void) { put_start(&b, whole(&b, n), -1); }
static void process_count(void) { put_process_call(&b, whole(&b, n), procedure, 300, integer(&b, 1)); }

static void wrong_parameters(void)
{
    put_call(&b, procedure, 1, integer(&b, 1));
    end_body(&b);
}

static void no_procedure(void) { put_call(&b, program, 0); }
static void no_called_block(void) { put_call(&b, 300, 0); }
static void no_argument(void) { put_call(&b, procedure, 2, 300, -5); }

/* ---- statements out of place */

static void no_opener(void) { put_arm(&b, boolean(&b, true)); }
static void no_opener_to_end(void) { put_end(&b); }
static void no_arm(void) { put_if(&b); put_skip(&b); }
static void empty_arm(void) { put_if(&b); put_arm(&b, boolean(&b, true)); put_end(&b); }
static void open_opener(void) { put_if(&b); put_arm(&b, boolean(&b, true)); put_skip(&b); end_body(&b); }
static void open_body(void) { begin_body(&b, procedure); }
static void second_body(void) { end_body(&b); begin_body(&b, program); }
static void no_body(void) { end_body(&b); put_skip(&b); }
static void unended_body(void) {}
static void bodiless(void) { end_body(&b); add_module(&b); }

static void empty_body(void)
{
    end_body(&b);
    begin_body(&b, add_procedure(&b, program));
    end_body(&b);
}

/* ---- sections that are full */

static void many_types(void) { for (int i = 0; i < 300; i++) array_type(&b, INTEGER, INTEGER, 1, 2); }
static void many_record_fields(void) { for (int i = 0; i < 300; i++) record_type(&b, 2, INTEGER, INTEGER); }
static void many_variables(void) { for (int i = 0; i < 300; i++) add_local(&b, program, INTEGER); }
static void many_blocks(void) { for (int i = 0; i < 300; i++) add_module(&b); }
static void many_characters(void) { for (int i = 0; i < 52; i++) text(&b, "Joyce"); }
static void many_nodes(void) { for (int i = 0; i < 300; i++) integer(&b, 1); }
static void many_statements(void) { for (int i = 0; i < 300; i++) put_skip(&b); }
static void many_openers(void) { for (int i = 0; i < 300; i++) { put_if(&b); put_arm(&b, boolean(&b, true)); } }

#define TEN 1, 1, 1, 1, 1, 1, 1, 1, 1, 1
static void long_list(void)
{
    put_call(&b, procedure, 260,
             TEN, TEN, TEN, TEN, TEN, TEN, TEN, TEN, TEN, TEN, TEN, TEN, TEN, TEN, TEN, TEN, TEN, TEN, TEN, TEN, TEN, TEN, TEN, TEN, TEN, TEN);
}

/* The 128th call finds room for one argument of two. */
static void many_arguments_in_all(void)
{
    for (int i = 0; i < 128; i++)
        put_call(&b, procedure, 2, integer(&b, 1), integer(&b, 2));
}

struct test {
    const char *name;
    void (*act)(void);
    const char *mistake;
};

static const struct test tests[] = {
    {"no_variable", no_variable, "call 11, whole: there is no variable 7"},
    {"no_variable_below", no_variable_below, "call 11, whole: there is no variable -1"},
    {"no_variable_value", no_variable_value, "call 11, value: there is no variable 300"},
    {"large_integer", large_integer, "call 11, integer: 40000 is no integer, -32768..32767"},
    {"small_integer", small_integer, "call 11, integer: -32769 is no integer, -32768..32767"},
    {"no_character", no_character, "call 11, character: 128 is no character, 0..127"},
    {"empty_text", empty_text, "call 11, text: a string constant has at least 1 character"},
    {"no_text_character", no_text_character, "call 11, text: 233 is no character, 0..127"},
    {"long_text", long_text, "call 11, text_of: a table has at most 255 characters"},
    {"no_node", no_node, "call 11, put_assign: there is no node 300"},
    {"no_operand", no_operand, "call 12, binary: there is no node 300"},
    {"no_operator", no_operator, "call 13, binary: there is no operator '!'"},
    {"no_field", no_field, "call 12, field: there is no field 300"},
    {"no_standard_type", no_standard_type, "call 12, transfer: type 3 is no standard type"},
    {"wrong_sort", wrong_sort, "call 13, put_assign: node 0 is an expression, and a variable is needed"},
    {"wrong_sort_too", wrong_sort_too, "call 13, put_assign: node 0 is a variable, and an expression is needed"},
    {"unused_node", unused_node, "call 14, finish_table: the node of call 11 is not used"},
    {"used_twice", used_twice, "call 12, binary: node 0 is used already"},
    {"no_block", no_block, "call 11, add_local: there is no block 300"},
    {"no_type", no_type, "call 11, add_local: there is no type 9"},
    {"no_element_type", no_element_type, "call 11, array_type: there is no type 3"},
    {"no_index_type", no_index_type, "call 11, array_type: type 3 is no type of an index"},
    {"large_bound", large_bound, "call 11, array_type: the bound 40000 is no integer"},
    {"no_owner", no_owner, "call 11, add_procedure: there is no block 300"},
    {"owner_procedure", owner_procedure, "call 11, add_procedure: block 1 is a procedure, and owns none"},
    {"second_program", second_program, "call 11, add_program: there are 2 blocks already, and the program is the first"},
    {"program_parameter", late_parameter, "call 11, add_value_parameter: the program has no parameters"},
    {"space_of_no_block", space_of_no_block, "call 11, set_space: there is no block 300"},
    {"space_of_procedure", space_of_procedure, "call 11, set_space: block 1 is a procedure; the program or module that owns it has the space"},
    {"odd_space", odd_space, "call 11, set_space: a space is even, and 7 is odd: a word has two bytes"},
    {"large_space", large_space, "call 11, set_space: a space is 0..510 bytes, not 512"},
    {"negative_space", negative_space, "call 11, set_space: a space is 0..510 bytes, not -2"},
    {"parameter_after_local", parameter_after_local, "call 12, add_value_parameter: block 1 has a local already, and parameters come first"},
    {"no_module", no_module, "call 11, process_type: block 1 is no module"},
    {"two_process_types", two_process_types, "call 13, process_type: block 2 has a process type already"},
    {"few_fields", few_fields, "call 11, record_type: 3 are announced, and 1 given"},
    {"many_fields", many_fields, "call 11, record_type: 1 are announced, and 3 given"},
    {"no_fields", no_fields, "call 11, record_type: a record of 0 fields"},
    {"few_arguments", few_arguments, "call 12, put_call: 2 are announced, and 1 given"},
    {"many_arguments", many_arguments, "call 14, put_call: 2 are announced, and 3 given"},
    {"huge_count", huge_count, "call 11, put_call: 2147483647 are announced, and 0 given"},
    {"negative_count", negative_count, "call 12, put_start: -1 are announced, and 0 given"},
    {"process_count", process_count, "call 13, put_process_call: 300 are announced, and 1 given"},
    {"wrong_parameters", wrong_parameters, "call 12, put_call: 1 arguments for 2 parameters"},
    {"no_procedure", no_procedure, "call 11, put_call: block 0 is no procedure"},
    {"no_called_block", no_called_block, "call 11, put_call: there is no block 300"},
    {"no_argument", no_argument, "call 11, put_call: there is no node 300"},
    {"no_opener", no_opener, "call 12, put_arm: no if, while, when or cycle is open"},
    {"no_opener_to_end", no_opener_to_end, "call 11, put_end: no if, while, when or cycle is open"},
    {"no_arm", no_arm, "call 12, put_skip: an arm comes first"},
    {"empty_arm", empty_arm, "call 14, put_end: the arm holds no statement"},
    {"open_opener", open_opener, "call 15, end_body: 1 of if, while, when and cycle have no put_end"},
    {"open_body", open_body, "call 11, begin_body: the body of block 0 has not ended"},
    {"second_body", second_body, "call 12, begin_body: block 0 has a body already"},
    {"no_body", no_body, "call 12, put_skip: no body has begun"},
    {"unended_body", unended_body, "call 11, finish_table: the body of block 0 has not ended"},
    {"bodiless", bodiless, "call 13, finish_table: block 2 has no body"},
    {"empty_body", empty_body, "call 14, end_body: the body holds no statement"},
    {"many_types", many_types, "call 266, array_type: a table has at most 255 types"},
    {"many_record_fields", many_record_fields, "call 138, record_type: a table has at most 255 fields"},
    {"many_variables", many_variables, "call 263, add_local: a table has at most 255 variables"},
    {"many_blocks", many_blocks, "call 264, add_module: a table has at most 255 blocks"},
    {"many_characters", many_characters, "call 62, text: a table has at most 255 characters"},
    {"many_nodes", many_nodes, "call 266, integer: a table has at most 255 nodes"},
    {"many_statements", many_statements, "call 263, put_skip: a table has at most 255 statements"},
    {"many_openers", many_openers, "call 389, put_if: a table has at most 255 statements"},
    {"long_list", long_list, "call 11, put_call: a list has at most 255"},
    {"many_arguments_in_all", many_arguments_in_all, "call 393, integer: a table has at most 255 nodes"},
};

/* ---- everything wrong at once, for the sanitizers */

static const int numbers[] = {INT_MIN + 1, -70000, -256, -1, 0, 1, 2, 3, 255, 256, 300, 32768, 40000, 70000, INT_MAX};
enum { NUMBERS = sizeof numbers / sizeof *numbers };

static void call_all(int x, int y)
{
    record_type(&b, x, y, x);
    array_type(&b, x, y, x, y);
    process_type(&b, x);
    add_program(&b);
    add_module(&b);
    add_procedure(&b, x);
    set_space(&b, x, y);
    add_value_parameter(&b, x, y);
    add_var_parameter(&b, x, y);
    add_local(&b, x, y);
    begin_body(&b, x);
    put_skip(&b);
    put_assign(&b, field(&b, whole(&b, x), y), element(&b, x, y));
    put_assign(&b, x, y);
    put_write(&b, binary(&b, (char)x, x, y), binary(&b, '+', integer(&b, x), character(&b, y)));
    put_write(&b, minus(&b, value(&b, x)), inverse(&b, value_at(&b, y)));
    put_write(&b, device(&b, x), transfer(&b, x, y));
    put_write(&b, text(&b, "Joyce"), text_of(&b, "\0\x7f", (size_t)(unsigned)x % 3));
    put_call(&b, x, y, x, y);
    put_process_call(&b, x, y, x, y);
    put_start(&b, x, y, x);
    put_create(&b, x);
    put_if(&b);
    put_arm(&b, x);
    put_when(&b);
    put_cycle(&b);
    put_while(&b);
    put_end(&b);
    end_body(&b);
}

static void test_everything(void)
{
    int finished = 0;
    for (int i = 0; i < NUMBERS; i++)
        for (int k = 0; k < NUMBERS; k++) {
            start_table(&b);
            for (int times = 0; times < 40; times++)
                call_all(numbers[i], numbers[k]);
            finished += finish_table(&b, bytes, sizeof bytes) != 0 || !builder_mistake(&b);
        }
    for (int i = 0; i < NUMBERS; i++) { /* each with another after it in one table, that all sections fill */
        start_table(&b);
        for (int k = 0; k < 3000; k++)
            call_all(numbers[(i + k) % NUMBERS], numbers[(i * k) % NUMBERS]);
        finished += finish_table(&b, bytes, sizeof bytes) != 0 || !builder_mistake(&b);
    }
    printf(finished ? "FAIL builder/everything: %d tables were finished\n" : "ok builder/everything\n", finished);
    failures += finished > 0;
}

/* ---- and what is right */

static void test_right(void)
{
    prepare();
    put_call(&b, procedure, 2, integer(&b, -32768), whole(&b, n));
    put_assign(&b, whole(&b, n), integer(&b, 32767));
    end_body(&b);
    size_t length = finish_table(&b, bytes, sizeof bytes);
    bool is_right = length > 0 && !builder_mistake(&b) && joyce_check(bytes, length) == JOYCE_ACCEPTED;
    prepare();
    end_body(&b);
    size_t needed = finish_table(&b, bytes, sizeof bytes);
    prepare();
    end_body(&b);
    is_right &= finish_table(&b, bytes, needed) == needed;
    prepare();
    end_body(&b);
    is_right &= finish_table(&b, bytes, needed - 1) == 0 && builder_mistake(&b);
    puts(is_right ? "ok builder/right" : "FAIL builder/right");
    failures += !is_right;
}

/* String constants take their characters in the order of the table, whatever the order of the calls. */
static void test_texts(void)
{
    static const char wanted[] = "\6abc\0xy";
    start_table(&b);
    int name = array_type(&b, INTEGER, CHARACTER, 1, 2);
    program = add_program(&b);
    procedure = add_procedure(&b, program);
    add_value_parameter(&b, procedure, name);
    int second = text(&b, "xy"), first = text_of(&b, "abc", 4);
    begin_body(&b, procedure);
    put_skip(&b);
    end_body(&b);
    begin_body(&b, program);
    put_call(&b, procedure, 1, first);
    put_call(&b, procedure, 1, second);
    end_body(&b);
    size_t length = finish_table(&b, bytes, sizeof bytes);
    bool is_right = length > 7 && memcmp(bytes + length - 7, wanted, 7) == 0 && joyce_check(bytes, length) == JOYCE_ACCEPTED;
    puts(is_right ? "ok builder/texts" : "FAIL builder/texts");
    failures += !is_right;
}

/* The space of the program and of a module are in the table; the last one said counts, and 0 where none is. */
static void test_spaces(void)
{
    prepare();
    end_body(&b);
    int module = add_module(&b), other = add_module(&b);
    for (int i = module; i <= other; i++) {
        begin_body(&b, i);
        put_skip(&b);
        end_body(&b);
    }
    set_space(&b, module, 4);
    set_space(&b, module, 510);
    set_space(&b, program, 258);
    size_t length = finish_table(&b, bytes, sizeof bytes), blocks = 1 + 1 + 7 + 1; /* no types, no fields, three variables, the count */
    bool is_right = length > 0 && joyce_check(bytes, length) == JOYCE_ACCEPTED;
    static const int wanted[] = {258, 0, 510, 0};
    for (size_t i = 0; i < 4; i++)
        is_right = is_right && bytes[blocks + 8 * i + 6] + 256 * bytes[blocks + 8 * i + 7] == wanted[i];
    puts(is_right ? "ok builder/spaces" : "FAIL builder/spaces");
    failures += !is_right;
}

int main(void)
{
    for (size_t i = 0; i < sizeof tests / sizeof *tests; i++) {
        prepare();
        tests[i].act();
        expect(tests[i].name, tests[i].mistake);
    }
    test_everything();
    test_right();
    test_texts();
    test_spaces();
    return failures > 0;
}
