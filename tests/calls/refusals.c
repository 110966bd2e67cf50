/* Each refusal on each call that has it, with every lent byte compared before and after; where several apply, the lowest is returned. */
#include "board.h"
#include "support.h"
#include "tests.h"

#include <string.h>

static struct run_state r;
static uint8_t turns[4096], answers[4096], big[65536], zeros[JOYCE_STATE_SIZE];

/* The board, some frames on, and a schedule for it: all calls succeed. */
static bool prepare(struct lent *lent)
{
    for (size_t i = 0; i < sizeof turns; i++) {
        turns[i] = (uint8_t)(1 + i % 4);
        answers[i] = 0xee;
    }
    if (!begin_with(&r, board, JOYCE_START_UNSET) || !run_turns(&r, turns, 700, big))
        return false;
    memset(big, 0x11, sizeof big);
    *lent = lend(&r, turns, 100, answers);
    return true;
}

static void set(struct lent *lent, enum slice slice, const uint8_t *bytes, size_t length)
{
    lent->bytes[slice] = bytes;
    lent->lengths[slice] = length;
}

/* ---- 1: lengths */

static const size_t wrong_states[] = {0, 1, 2, 35326, 35328, 35330, 37374, 37375, 37377, 37378, 65536}; /* 35,328: a state of version 1 */
static const size_t wrong_pages[] = {0, 1, 8190, 8191, 8193, 8194, 16384, 65536};
static const size_t wrong_answers[][2] = {{1, 0}, {2, 1}, {100, 99}, {4096, 4095}, {4096, 0}};

static bool state_lengths(void)
{
    struct lent lent;
    if (!prepare(&lent))
        return false;
    for (size_t i = 0; i < sizeof wrong_states / sizeof *wrong_states; i++) {
        lent.number = i % 2;
        set(&lent, STATE, big, wrong_states[i]);
        for (int which = BEGIN; which <= LOOK; which++)
            if (!is_refused((enum call)which, &lent, JOYCE_LENGTH))
                return false;
    }
    return true;
}

/* The beginning of a state that is fine, 35,328 bytes of it: what version 1 kept. */
static bool version_1_states(void)
{
    struct lent lent;
    if (!prepare(&lent) || call(RUN, &lent, true) != JOYCE_OK)
        return bad("a state of this version is refused");
    set(&lent, STATE, r.state, 35328);
    return is_refused(BEGIN, &lent, JOYCE_LENGTH) && is_refused(RUN, &lent, JOYCE_LENGTH) && is_refused(LOOK, &lent, JOYCE_LENGTH);
}

/* Begin takes 0 and 1. The whole number counts, so that 256 and 65,536 are no 0; and it is judged before the table. */
static bool begin_numbers(void)
{
    static const uint32_t wrong[] = {2, 3, 255, 256, 257, 65535, 65536, 65537, 0x7fffffff, 0x80000000u, 0x80000001u, 0xfffffffeu, 0xffffffffu};
    struct lent lent, worse;
    if (!prepare(&lent))
        return false;
    for (size_t i = 0; i < sizeof wrong / sizeof *wrong; i++) {
        lent.number = wrong[i];
        worse = lent;
        if (!is_refused(BEGIN, &lent, JOYCE_LENGTH))
            return bad("begin with the number %u", (unsigned)wrong[i]);
        for (uint32_t verdict = JOYCE_SECTIONS; verdict <= JOYCE_TYPES; verdict++) {
            struct table t = table_of(verdict, i);
            set(&worse, TABLE, t.bytes, t.length);
            if (!is_refused(BEGIN, &worse, JOYCE_LENGTH))
                return bad("begin of a refused table with the number %u", (unsigned)wrong[i]);
        }
    }
    for (lent.number = 0; lent.number <= 1; lent.number++)
        if (call(BEGIN, &lent, true) != JOYCE_OK)
            return bad("begin refuses the number %u", (unsigned)lent.number);
    return true;
}

static bool page_lengths(void)
{
    struct lent lent;
    if (!prepare(&lent))
        return false;
    for (size_t i = 0; i < sizeof wrong_pages / sizeof *wrong_pages; i++) {
        set(&lent, PAGE, big, wrong_pages[i]);
        if (!is_refused(RUN, &lent, JOYCE_LENGTH))
            return false;
    }
    return true;
}

static bool answer_lengths(void)
{
    struct lent lent;
    if (!prepare(&lent))
        return false;
    for (size_t i = 0; i < sizeof wrong_answers / sizeof *wrong_answers; i++) {
        set(&lent, SCHEDULE, turns, wrong_answers[i][0]);
        set(&lent, ANSWERS, answers, wrong_answers[i][1]);
        if (!is_refused(RUN, &lent, JOYCE_LENGTH))
            return false;
    }
    return true;
}

/* ---- 2 to 9: tables, some of each verdict */

static bool refused_tables(void)
{
    struct lent lent;
    if (!prepare(&lent))
        return false;
    for (uint32_t verdict = JOYCE_SECTIONS; verdict <= JOYCE_TYPES; verdict++)
        for (size_t i = 0; i < 24; i++) {
            struct table t = table_of(verdict, i);
            set(&lent, TABLE, t.bytes, t.length);
            lent.number = i % 2;
            for (int which = CHECK; which <= LOOK; which++)
                if (!is_refused((enum call)which, &lent, verdict))
                    return false;
        }
    return true;
}

/* A table of one byte is refused, and so is one that is longer than any. (One of none is an empty slot: empty.c.) */
static bool odd_tables(void)
{
    static const size_t lengths[] = {1, 6, 7658, 65536};
    struct lent lent;
    if (!prepare(&lent))
        return false;
    for (size_t i = 0; i < sizeof lengths / sizeof *lengths; i++) {
        set(&lent, TABLE, big, lengths[i]);
        for (int which = CHECK; which <= LOOK; which++)
            if (!is_refused((enum call)which, &lent, JOYCE_SECTIONS))
                return false;
    }
    return true;
}

/* ---- 10: states */

struct damage {
    const char *what;
    size_t word;
    unsigned value;
};

/* Words of the state, by docs/STATE.md, of which the rule says something. */
static const struct damage damages[] = {
    {"no process is created", 16384 + 8, 0},
    {"65 processes are created", 16384 + 8, 65},
    {"an unknown failure", 16384 + 9, 15},
    {"an unknown failure", 16384 + 9, 25},
    {"an unknown failure", 16384 + 9, 30},
    {"an unknown failure", 16384 + 9, 32},
    {"an unknown failure", 16384 + 9, 31 + 256},
    {"begun with 2", 16384 + 10, 2},
    {"begun with 256", 16384 + 10, 256},
    {"begun with 65,535", 16384 + 10, 65535},
    {"process 1 is not started", 16384, 1},
    {"an unknown status", 16384, 4},
    {"process 1 has another module", 16384 + 1, 1},
    {"a statement of another block", 16384 + 2, 40},
    {"a statement out of its section", 16384 + 2, 255},
    {"a frame where there is no call", 16384 + 3, 4},
    {"another top", 16384 + 4, 5},
    {"it works on another process", 16384 + 5, 2},
    {"a holder that is not created", 16384 + 6, 64},
    {"a depth without frames", 16384 + 7, 1},
    {"a module that is a procedure", 16404 + 1, 2},
    {"a reference to a process of another module", 0, 3},
    {"a reference to process 1", 0, 1},
    {"a reference to no process", 0, 9},
    {"a boolean that is 2", 512 + 4, 2},
};

static bool damaged_states(void)
{
    static struct run_state damaged;
    struct lent lent;
    if (!prepare(&lent))
        return false;
    lent.variable = 3; /* the clock's beat, an integer */
    for (size_t i = 0; i < sizeof damages / sizeof *damages; i++) {
        damaged = r;
        damaged.state[2 * damages[i].word] = (uint8_t)damages[i].value;
        damaged.state[2 * damages[i].word + 1] = (uint8_t)(damages[i].value >> 8);
        set(&lent, STATE, damaged.state, sizeof damaged.state);
        if (!is_refused(RUN, &lent, JOYCE_STATE) || !is_refused(LOOK, &lent, JOYCE_STATE))
            return bad("a state in which word %zu is %u: %s", damages[i].word, damages[i].value, damages[i].what);
    }
    return true;
}

static bool unwritten_states(void)
{
    static uint8_t fill[JOYCE_STATE_SIZE];
    struct lent lent;
    if (!prepare(&lent))
        return false;
    for (int byte = 0; byte < 256; byte += 17) {
        memset(fill, byte, sizeof fill);
        set(&lent, STATE, fill, sizeof fill);
        if (!is_refused(RUN, &lent, JOYCE_STATE) || !is_refused(LOOK, &lent, JOYCE_STATE))
            return false;
        set(&lent, SCHEDULE, turns, byte % 2 ? 100 : 0); /* an empty schedule is tested like any other */
    }
    return true;
}

/* ---- 11: looks */

static bool absent_words(void)
{
    static const uint32_t absent[][3] = {
        {0, 0, 0}, {5, 0, 0}, {64, 0, 0}, {65, 0, 0}, {255, 0, 0}, {256, 0, 0}, {257, 0, 0}, {65537, 0, 0}, {4294967295u, 0, 0},
        {1, 4, 0}, {1, 17, 0}, {1, 18, 0}, {1, 255, 0}, {1, 256, 0}, {1, 65536, 0}, {1, 4294967295u, 0}, /* no variable of block 0 */
        {2, 3, 0}, {2, 7, 0}, {3, 13, 0}, {3, 14, 0},                                                     /* another's; a procedure's */
        {1, 0, 1}, {1, 0, 256}, {1, 3, 65536}, {1, 3, 4294967295u}, {3, 12, 1},                           /* places */
        {4294967295u, 4294967295u, 4294967295u},
    };
    struct lent lent;
    if (!prepare(&lent))
        return false;
    for (size_t i = 0; i < sizeof absent / sizeof *absent; i++) {
        lent.process = absent[i][0];
        lent.variable = absent[i][1];
        lent.place = absent[i][2];
        if (!is_refused(LOOK, &lent, JOYCE_ABSENT))
            return bad("look at process %u, variable %u, place %u", absent[i][0], absent[i][1], absent[i][2]);
    }
    return true;
}

/* Process 2 of the board is created by the first step after the boot and started by the second. */
static bool unstarted_process(void)
{
    static const uint8_t one[] = {1};
    struct lent lent;
    if (!prepare(&lent) || !begin(&r, board)) /* with zeros: what is looked at has a value */
        return false;
    boot_turns(big);
    if (!run_turns(&r, big, BOOT_STEPS, answers) || !run_turns(&r, one, 1, answers))
        return false;
    lent = lend(&r, turns, 0, answers);
    lent.process = 2;
    lent.variable = 4;
    if (!is_refused(LOOK, &lent, JOYCE_ABSENT))
        return false;
    return (run_turns(&r, one, 1, answers) && call(LOOK, &lent, true) == JOYCE_WORD) || bad("the word of a started process is not seen");
}

/* ---- several at once */

static bool lowest_first(void)
{
    static const enum call stateful[] = {RUN, LOOK};
    struct lent lent, worse;
    struct table t = table_of(JOYCE_TYPES, 3);
    if (!prepare(&lent))
        return false;
    lent.process = 99;
    set(&lent, STATE, zeros, sizeof zeros);
    for (int i = 0; i < 2; i++)
        if (!is_refused(stateful[i], &lent, JOYCE_STATE)) /* before 11 */
            return false;
    set(&lent, TABLE, t.bytes, t.length);
    for (int i = 0; i < 2; i++)
        if (!is_refused(stateful[i], &lent, JOYCE_TYPES)) /* before 10 */
            return false;
    worse = lent;
    set(&worse, STATE, zeros, sizeof zeros - 1);
    for (int which = BEGIN; which <= LOOK; which++)
        if (!is_refused((enum call)which, &worse, JOYCE_LENGTH)) /* before 9 */
            return false;
    worse = lent;
    set(&worse, PAGE, big, 8191);
    if (!is_refused(RUN, &worse, JOYCE_LENGTH))
        return false;
    worse = lent;
    set(&worse, ANSWERS, answers, 99);
    return is_refused(RUN, &worse, JOYCE_LENGTH);
}

/* Null pointers, where there are no bytes. */
static bool null_slices(void)
{
    struct lent lent;
    if (!prepare(&lent))
        return false;
    const uint8_t *t = board.bytes;
    size_t n = board.length;
    bool is_so = joyce_begin(t, n, NULL, 0, JOYCE_START_UNSET) == JOYCE_LENGTH && joyce_look(t, n, NULL, 0, 1, 0, 0) == JOYCE_LENGTH &&
                 joyce_run(NULL, 0, NULL, 0, NULL, 0, NULL, 0, NULL, 0) == JOYCE_LENGTH &&
                 joyce_run(t, n, r.state, sizeof r.state, r.page, sizeof r.page, NULL, 0, NULL, 0) == JOYCE_OK;
    return is_so || bad("a call with a null slice");
}

void refusal_tests(void)
{
    run_test("refusal_1_state", state_lengths);
    run_test("refusal_1_version_1", version_1_states);
    run_test("refusal_1_number", begin_numbers);
    run_test("refusal_1_page", page_lengths);
    run_test("refusal_1_answers", answer_lengths);
    run_test("refusals_2_to_9", refused_tables);
    run_test("refusal_2_lengths", odd_tables);
    run_test("refusal_10_damaged", damaged_states);
    run_test("refusal_10_unwritten", unwritten_states);
    run_test("refusal_11", absent_words);
    run_test("refusal_11_unstarted", unstarted_process);
    run_test("lowest_refusal_first", lowest_first);
    run_test("null_slices", null_slices);
}
