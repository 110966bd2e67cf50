/* A fuzz target of the four calls that take tables, for libFuzzer (make fuzz) or AFL++, and for fuzz/short.c, which makes inputs of its own.
 *
 * An input: a byte of flags, one of which is the number that the run begins with; a byte n, and n damages to the state, each a word (where) and a
 * byte (what is flipped); a byte n, and n bytes of schedule, which by a flag are gone through four times; three bytes, what to look at; and the rest,
 * which is the table.
 *
 * What must hold of any input: nothing crashes or is touched beside a slice; a refusal changes no lent byte; begin, run and look give a table the
 * verdict of check; begin refuses other numbers than 0 and 1; each answer is one of joyce.h, and after a failure all are the same; no step answers
 * 31 and no look 32 where the run began with 1 and nothing is damaged; a state after a run is a state of its program; a run cut into single steps is
 * the same run; with every space the largest a run answers the same up to its first 22. With -DPLAIN, also: the plain interpreter of bench/ leaves
 * the same.
 *
 * With -DCOUNT it says at its end what the inputs were: their verdicts, how many made an accepted program step, and how many ended with 22, by
 * which limit. */
#include "joyce.h"
#ifdef PLAIN
#include "plain.h"
#endif

#include <stdbool.h>
#include <stdio.h>
#include <stdlib.h>
#include <string.h>

int LLVMFuzzerTestOneInput(const uint8_t *data, size_t size);

enum { WRONG_STATE = 1, WRONG_PAGE = 2, SHORT_ANSWERS = 4, LONG_ANSWERS = 8, WARM = 16, SINGLE_STEPS = 32, ZEROS = 64, REPEATED = 128 };
/* In a long run rows of a plan (crates/engine) are made and used again: one of at least as many steps as the table has nodes, at most 255. */
enum { REPEATS = 4, SCHEDULE_MAX = REPEATS * 255, TAIL = 64 };

struct input {
    const uint8_t *rest;
    size_t left;
    uint8_t flags, damages;
    size_t turns;
    const uint8_t *damage, *schedule, *looks, *table;
    size_t table_len;
};

/* The bytes lent to a run. They are allocated with their exact lengths, so that a sanitizer sees a byte too far. */
struct lent {
    uint8_t *state, *page, *answers;
    size_t state_len, page_len, answers_len;
};

static void expect(bool is_so, const char *what)
{
    if (is_so)
        return;
    fprintf(stderr, "fuzz: %s\n", what);
    abort();
}

static const uint8_t *take(struct input *in, size_t count)
{
    const uint8_t *at = in->rest;
    if (count > in->left)
        return NULL;
    in->rest += count;
    in->left -= count;
    return at;
}

static bool read_input(struct input *in, const uint8_t *data, size_t size)
{
    const uint8_t *head;
    *in = (struct input){.rest = data, .left = size};
    if (!(head = take(in, 2)))
        return false;
    in->flags = head[0];
    in->damages = head[1] % 8;
    if (!(in->damage = take(in, 3u * in->damages)) || !(head = take(in, 1)))
        return false;
    in->turns = head[0];
    if (!(in->schedule = take(in, in->turns)) || !(in->looks = take(in, 3)))
        return false;
    in->table = in->rest;
    in->table_len = in->left;
    return true;
}

static void *filled(size_t length, int byte)
{
    uint8_t *bytes = malloc(length ? length : 1);
    expect(bytes != NULL, "no memory");
    memset(bytes, byte, length ? length : 1);
    return bytes;
}

/* The steps of a run, lent with their exact length. */
static uint8_t *all_turns(const uint8_t *schedule, size_t turns, size_t times)
{
    uint8_t *all = filled(times * turns, 0);
    for (size_t i = 0; i < times; i++)
        memcpy(all + i * turns, schedule, turns);
    return all;
}

static struct lent lend(const struct input *in)
{
    struct lent l = {.state_len = JOYCE_STATE_SIZE, .page_len = JOYCE_PAGE_SIZE, .answers_len = in->turns};
    if (in->flags & WRONG_STATE)
        l.state_len = JOYCE_STATE_SIZE - 1 + 2 * (in->damages & 1u);
    if (in->flags & WRONG_PAGE)
        l.page_len = in->turns % 2 ? 0 : JOYCE_PAGE_SIZE + 2;
    if (in->flags & LONG_ANSWERS)
        l.answers_len += TAIL;
    else if (in->flags & SHORT_ANSWERS && in->turns > 0)
        l.answers_len--;
    l.state = filled(l.state_len, 0x5a);
    l.page = filled(l.page_len, 0);
    l.answers = filled(l.answers_len, 0xc3);
    return l;
}

static struct lent copy_of(const struct lent *l)
{
    struct lent c = *l;
    c.state = filled(l->state_len, 0);
    c.page = filled(l->page_len, 0);
    c.answers = filled(l->answers_len, 0);
    memcpy(c.state, l->state, l->state_len);
    memcpy(c.page, l->page, l->page_len);
    memcpy(c.answers, l->answers, l->answers_len);
    return c;
}

static void release(struct lent *l)
{
    free(l->state);
    free(l->page);
    free(l->answers);
}

static bool is_same(const struct lent *a, const struct lent *b)
{
    return memcmp(a->state, b->state, a->state_len) == 0 && memcmp(a->page, b->page, a->page_len) == 0 &&
           memcmp(a->answers, b->answers, a->answers_len) == 0;
}

static uint32_t run(const struct input *in, struct lent *l, size_t first, size_t count)
{
    return joyce_run(in->table, in->table_len, l->state, l->state_len, l->page, l->page_len, in->schedule + first, count, l->answers + first,
                     l->answers_len - first);
}

/* ---- what the inputs were */

#ifdef COUNT
static struct {
    unsigned long inputs, verdicts[JOYCE_TYPES + 1], accepted_long, stepped, stepped_strings, long_runs, long_tables, by_reserve, by_area;
    bool has_stepped; /* the input at hand */
} seen;

static double share(unsigned long part)
{
    return 100.0 * (double)part / (double)(seen.inputs ? seen.inputs : 1);
}

static void tell(void)
{
    fprintf(stderr, "%lu inputs, %.1f %% step an accepted program, %.1f %% one with string constants, %.1f %% one in a long run, %lu of these of "
                    "more than 191 nodes, %.1f %% pass a reserve, %.1f %% pass an area; accepted and longer than 100 bytes: %.1f %%; verdicts",
            seen.inputs, share(seen.stepped), share(seen.stepped_strings), share(seen.long_runs), seen.long_tables, share(seen.by_reserve),
            share(seen.by_area), share(seen.accepted_long));
    for (int i = 0; i <= JOYCE_TYPES; i++)
        if (i != JOYCE_LENGTH)
            fprintf(stderr, " %d: %.1f %%", i, share(seen.verdicts[i]));
    fprintf(stderr, "\n");
}

static void count_input(void)
{
    if (seen.inputs++ == 0)
        atexit(tell);
}

static void count_steps(const uint8_t *answers, size_t turns)
{
    seen.has_stepped |= memchr(answers, JOYCE_DONE, turns) != NULL;
}

/* Where a section of an accepted table begins. */
static size_t section_at(const struct input *in, int section)
{
    static const size_t sizes[] = {7, 1, 2, 8, 1, 5, 6};
    size_t at = 0;
    for (int i = 0; i < section && at < in->table_len; i++)
        at += 1 + in->table[at] * sizes[i];
    return at;
}

/* The eighth section of an accepted table has characters. */
static bool has_strings(const struct input *in)
{
    return section_at(in, 7) + 1 < in->table_len;
}

static void count_long(const struct input *in)
{
    size_t at = section_at(in, 5), nodes = at < in->table_len ? in->table[at] : 0;
    bool is_long = seen.has_stepped && in->turns >= nodes;
    seen.long_runs += is_long;
    seen.long_tables += is_long && nodes > 191;
}

static void count(const struct input *in, uint32_t verdict)
{
    seen.verdicts[verdict]++;
    seen.accepted_long += verdict == JOYCE_ACCEPTED && in->table_len > 100;
    seen.stepped += seen.has_stepped;
    seen.stepped_strings += seen.has_stepped && has_strings(in);
    count_long(in);
    seen.has_stepped = false;
}
static void count_room(bool is_reserve)
{
    seen.by_reserve += is_reserve;
    seen.by_area += !is_reserve;
}
#else
#define count_input() ((void)0)
#define count_room(is_reserve) ((void)(is_reserve))
#define count_steps(answers, turns) ((void)(answers), (void)(turns))
#define count(in, verdict) ((void)0)
#endif

/* ---- reserves */

enum { FAILURE_BYTE = 2 * (16384 + 9), SPACE = 6 };

/* The accepted table with every space the largest, with which the area decides alone. */
static uint8_t *widened(const struct input *in)
{
    static const size_t sizes[] = {7, 1, 2};
    uint8_t *table = filled(in->table_len, 0);
    size_t at = 0;
    memcpy(table, in->table, in->table_len);
    for (int i = 0; in->table_len > 0 && i < 3; i++)
        at += 1 + table[at] * sizes[i];
    for (int i = in->table_len > 0 ? table[at++] : 0; i > 0; i--, at += 8)
        if (table[at] != JOYCE_BLOCK_PROCEDURE) {
            table[at + SPACE] = JOYCE_SPACE_MAX % 256;
            table[at + SPACE + 1] = JOYCE_SPACE_MAX / 256;
        }
    return table;
}

/* A run that ended with 22, again with wide spaces: up to there it is the same, and there the call has room, or its area is full. */
static void check_room(const struct input *in, const struct lent *before, const uint8_t *answers)
{
    const uint8_t *failed = memchr(answers, JOYCE_AREA, in->turns);
    size_t steps = failed ? (size_t)(failed - answers) + 1 : 0;
    uint8_t wide[SCHEDULE_MAX];
    if (!failed || before->state[FAILURE_BYTE] != 0)
        return;
    struct lent again = copy_of(before);
    uint8_t *table = widened(in);
    uint32_t result = joyce_run(table, in->table_len, again.state, again.state_len, again.page, again.page_len, in->schedule, steps, wide, steps);
    expect(result == JOYCE_OK && memcmp(wide, answers, steps - 1) == 0, "a wider space changes answers before the first 22");
    expect(wide[steps - 1] == JOYCE_DONE || wide[steps - 1] == JOYCE_AREA, "a wider space makes another answer of a 22");
    count_room(wide[steps - 1] == JOYCE_DONE);
    release(&again);
    free(table);
}

/* ---- begin */

static void try_begin(const struct input *in, struct lent *l, uint32_t verdict)
{
    static const uint32_t wrong[] = {2, 256, 65536, UINT32_MAX};
    struct lent before = copy_of(l);
    uint32_t number = in->flags & ZEROS ? JOYCE_START_ZEROS : JOYCE_START_UNSET;
    uint32_t result = joyce_begin(in->table, in->table_len, l->state, l->state_len, wrong[in->turns % 4]);
    expect(result == JOYCE_LENGTH && is_same(l, &before), "begin takes a wrong number, or changes the state");
    result = joyce_begin(in->table, in->table_len, l->state, l->state_len, number);
    expect(result == (l->state_len != JOYCE_STATE_SIZE ? (uint32_t)JOYCE_LENGTH : verdict), "begin gives another verdict than check");
    expect(result == JOYCE_OK || is_same(l, &before), "begin refused and changed the state");
#ifdef PLAIN
    uint32_t plain = plain_begin(in->table, in->table_len, before.state, before.state_len, number);
    expect(plain == result && is_same(l, &before), "begin is not that of the plain interpreter");
#endif
    release(&before);
}

/* Some steps from the beginning, so that damages meet processes and calls. */
static void warm_up(const struct input *in, struct lent *l)
{
    uint8_t answers[SCHEDULE_MAX];
    if (l->state_len != JOYCE_STATE_SIZE || l->page_len != JOYCE_PAGE_SIZE)
        return;
    struct lent before = copy_of(l);
    uint32_t result = joyce_run(in->table, in->table_len, l->state, l->state_len, l->page, l->page_len, in->schedule, in->turns, answers,
                                in->turns);
    expect(result == JOYCE_OK, "a run from the beginning is refused");
    count_steps(answers, in->turns);
    check_room(in, &before, answers);
    release(&before);
}

/* All words are marked: the run began with 1, and nothing was damaged. */
static bool is_all_set(const struct input *in)
{
    return in->flags & ZEROS && in->damages == 0;
}

/* ---- run */

static void check_answers(const struct input *in, const struct lent *l)
{
    unsigned failure = 0;
    for (size_t i = 0; i < in->turns; i++) {
        unsigned answer = l->answers[i];
        bool is_failure = (answer >= JOYCE_FAILURE && answer <= JOYCE_PROCESSES) || answer == JOYCE_UNSET;
        expect(answer <= JOYCE_NO_PROCESS || is_failure, "an answer that is none");
        expect(answer != JOYCE_UNSET || !is_all_set(in), "a step retrieves what is unset, and nothing is");
        expect(failure == 0 || answer == failure, "an answer after a failure");
        failure = answer >= JOYCE_FAILURE ? answer : 0;
    }
    for (size_t i = in->turns; i < l->answers_len; i++)
        expect(l->answers[i] == 0xc3, "an answer byte after those of the schedule");
}

static void check_single_steps(const struct input *in, struct lent *once, struct lent *again)
{
    for (size_t i = 0; i < in->turns; i++)
        expect(run(in, again, i, 1) == JOYCE_OK, "a single step is refused");
    expect(is_same(once, again), "single steps are another run");
}

static uint32_t run_verdict(const struct lent *l, size_t turns, uint32_t verdict)
{
    bool is_wrong = l->state_len != JOYCE_STATE_SIZE || l->page_len != JOYCE_PAGE_SIZE || l->answers_len < turns;
    return is_wrong ? (uint32_t)JOYCE_LENGTH : verdict;
}

static void try_run(const struct input *in, struct lent *l, uint32_t verdict)
{
    struct lent before = copy_of(l);
    uint32_t result = run(in, l, 0, in->turns), expected = run_verdict(l, in->turns, verdict);
    expect(result == expected || (expected == JOYCE_OK && result == JOYCE_STATE), "run gives another verdict than check");
    expect(result == JOYCE_OK || is_same(l, &before), "run refused and changed something");
    if (result == JOYCE_OK) {
        check_answers(in, l);
        count_steps(l->answers, in->turns);
        check_room(in, &before, l->answers);
        expect(run(in, l, in->turns, 0) == JOYCE_OK, "the state after a run is refused");
        if (in->flags & SINGLE_STEPS) {
            struct lent again = copy_of(&before);
            check_single_steps(in, l, &again);
            release(&again);
        }
    }
#ifdef PLAIN
    uint32_t plain = plain_run(in->table, in->table_len, before.state, before.state_len, before.page, before.page_len, in->schedule,
                               in->turns, before.answers, before.answers_len);
    expect(plain == result && is_same(l, &before), "run is not that of the plain interpreter");
#endif
    release(&before);
}

/* ---- look */

static void try_look(const struct input *in, const struct lent *l, uint32_t verdict)
{
    struct lent before = copy_of(l);
    uint32_t process = in->looks[0], variable = in->looks[1], place = in->looks[2];
    uint32_t result = joyce_look(in->table, in->table_len, l->state, l->state_len, process, variable, place);
    uint8_t page[JOYCE_PAGE_SIZE] = {0};
    expect(is_same(l, &before), "look changed something");
    if (l->state_len != JOYCE_STATE_SIZE)
        expect(result == JOYCE_LENGTH, "look takes a wrong length");
    else if (verdict != JOYCE_ACCEPTED)
        expect(result == verdict, "look gives another verdict than check");
    else if (joyce_run(in->table, in->table_len, before.state, before.state_len, page, sizeof page, NULL, 0, NULL, 0) != JOYCE_OK)
        expect(result == JOYCE_STATE, "look takes a state that run refuses");
    else
        expect(result == JOYCE_ABSENT || result == JOYCE_UNSET_WORD || (result >= JOYCE_WORD && result < 2 * JOYCE_WORD),
               "look returns what is no result");
    expect(result != JOYCE_UNSET_WORD || !is_all_set(in), "look finds a word unset, and none is");
#ifdef PLAIN
    uint32_t plain = plain_look(in->table, in->table_len, l->state, l->state_len, process, variable, place);
    expect(plain == result, "look is not that of the plain interpreter");
#endif
    release(&before);
}

int LLVMFuzzerTestOneInput(const uint8_t *data, size_t size)
{
    struct input in;
    count_input();
    if (!read_input(&in, data, size))
        return 0;
    uint8_t *table = filled(in.table_len, 0);
    memcpy(table, in.table, in.table_len);
    in.table = table;
    size_t times = in.flags & REPEATED ? REPEATS : 1;
    uint8_t *schedule = all_turns(in.schedule, in.turns, times);
    in.schedule = schedule;
    in.turns *= times;
    uint32_t verdict = joyce_check(table, in.table_len);
    expect(verdict != JOYCE_LENGTH && verdict <= JOYCE_TYPES, "check returns what is no verdict");

    struct lent l = lend(&in);
    try_begin(&in, &l, verdict);
    if (verdict == JOYCE_ACCEPTED && in.flags & WARM)
        warm_up(&in, &l);
    for (unsigned i = 0; i < in.damages; i++)
        l.state[(in.damage[3 * i] + 256u * in.damage[3 * i + 1]) % l.state_len] ^= in.damage[3 * i + 2];
    try_look(&in, &l, verdict);
    try_run(&in, &l, verdict);
    count(&in, verdict);
    expect(memcmp(table, data + (size - in.table_len), in.table_len) == 0, "the table was changed");
    release(&l);
    free(schedule);
    free(table);
    return 0;
}
