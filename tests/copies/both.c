#include "both.h"
#include "plain.h"
#include "program.h"
#ifndef PLAIN
#include "joyce.h"
#else
#define joyce_check plain_check
#define joyce_begin plain_begin
#define joyce_run plain_run
#define joyce_look plain_look
#define JOYCE_WORD 65536u
#endif

#include <stdarg.h>
#include <stdio.h>
#include <string.h>

enum { RECORDS = PROCESSES * AREA, RECORD_WORDS = 20, STATEMENT_WORD = 2, CREATED_WORD = 8, LONGEST_CALL = 256 };

char why[500];
uint64_t seed;

bool bad(const char *format, ...)
{
    va_list args;
    va_start(args, format);
    vsnprintf(why, sizeof why, format, args);
    va_end(args);
    return false;
}

int report(const char *name, bool is_ok, const char *format, ...)
{
    va_list args;
    va_start(args, format);
    printf("%s copies/%s: ", is_ok ? "ok" : "FAIL", name);
    if (is_ok)
        vprintf(format, args);
    else
        printf("%s", why);
    va_end(args);
    printf("\n");
    fflush(stdout);
    return is_ok ? 0 : 1;
}

int below(int limit)
{
    seed ^= seed >> 12;
    seed ^= seed << 25;
    seed ^= seed >> 27;
    return (int)((uint32_t)((seed * 0x2545F4914F6CDD1Du) >> 33) % (uint32_t)limit);
}

static int word_of(const uint8_t *state, int i)
{
    return state[2 * i] + 256 * state[2 * i + 1];
}

/* Which statements copy several words is read with the plain checker. */
static bool find_copies(struct both *r)
{
    static struct program g;
    uint32_t refused = plain_decode(&g, r->table, r->length);
    if (refused)
        return bad("the plain checker refuses the table with %u", (unsigned)refused);
    for (int i = 0; i < g.statements; i++)
        r->is_copy[i] = g.statement[i].kind == ASSIGN && g.words[g.type_of[g.statement[i].a]] > 1;
    return true;
}

bool begin_both(struct both *r, const uint8_t *table, size_t length)
{
    r->table = table;
    r->length = length;
    memset(r->page, 0, sizeof r->page);
    memset(r->state, 0xa5, sizeof r->state);
    uint32_t verdict = joyce_check(table, length);
    if (verdict)
        return bad("check refuses the table with %u", (unsigned)verdict);
    if (!find_copies(r))
        return false;
    uint32_t ours = joyce_begin(table, length, r->state[OURS], STATE, 1), plain = plain_begin(table, length, r->state[PLAIN_ONE], STATE, 1);
    if (ours || plain)
        return bad("begin returns %u, the plain one %u", (unsigned)ours, (unsigned)plain);
    return memcmp(r->state[OURS], r->state[PLAIN_ONE], STATE) == 0 || bad("the states differ at the beginning");
}

static bool same_states(const struct both *r, int process, int statement)
{
    for (int i = 0; i < STATE / 2; i++) {
        int ours = word_of(r->state[OURS], i), plain = word_of(r->state[PLAIN_ONE], i);
        if (ours != plain)
            return bad("after the step of process %d at statement %d word %d of the state is %d, the plain one's %d", process, statement, i, ours,
                       plain);
    }
    return true;
}

bool run_both(struct both *r, const uint8_t *schedule, size_t n)
{
    uint8_t answers[TWO][LONGEST_CALL];
    int process = schedule[0], statement = -1;
    if (n == 0 || n > LONGEST_CALL)
        return bad("a call of %zu steps", n);
    if (process >= 1 && process <= created(r))
        statement = word_of(r->state[OURS], RECORDS + (process - 1) * RECORD_WORDS + STATEMENT_WORD);
    uint32_t ours = joyce_run(r->table, r->length, r->state[OURS], STATE, r->page[OURS], PAGE, schedule, n, answers[OURS], n);
    uint32_t plain = plain_run(r->table, r->length, r->state[PLAIN_ONE], STATE, r->page[PLAIN_ONE], PAGE, schedule, n, answers[PLAIN_ONE], n);
    if (ours || plain)
        return bad("run returns %u, the plain one %u", (unsigned)ours, (unsigned)plain);
    for (size_t i = 0; i < n; i++)
        if (answers[OURS][i] != answers[PLAIN_ONE][i])
            return bad("a step of process %d answers %d, the plain one's %d", schedule[i], answers[OURS][i], answers[PLAIN_ONE][i]);
    if (memcmp(r->state[OURS], r->state[PLAIN_ONE], STATE) != 0)
        return same_states(r, process, statement);
    if (memcmp(r->page[OURS], r->page[PLAIN_ONE], PAGE) != 0)
        return bad("the pages differ after the step of process %d at statement %d", process, statement);
    r->answer = answers[OURS][n - 1];
    r->steps += n;
    if (n == 1 && r->answer == ADVANCED && statement >= 0 && statement < STATEMENTS)
        r->copies += r->is_copy[statement];
    return true;
}

bool step_both(struct both *r, int process)
{
    uint8_t schedule = (uint8_t)process;
    return run_both(r, &schedule, 1);
}

void poke_both(struct both *r, int process, int at, int word)
{
    size_t byte = 2 * (size_t)((process - 1) * AREA + at);
    for (int k = 0; k < TWO; k++) {
        r->state[k][byte] = (uint8_t)word;
        r->state[k][byte + 1] = (uint8_t)(word >> 8);
    }
}

int created(const struct both *r)
{
    return word_of(r->state[OURS], RECORDS + CREATED_WORD);
}

bool look_is(struct both *r, int process, int variable, int place, int expected)
{
    r->looks++;
    uint32_t found = joyce_look(r->table, r->length, r->state[OURS], STATE, (uint32_t)process, (uint32_t)variable, (uint32_t)place);
    if (found == JOYCE_WORD + (uint32_t)expected)
        return true;
    return bad("a look at process %d, variable %d, word %d gives %ld, not %d", process, variable, place, (long)found - (long)JOYCE_WORD, expected);
}

int main(void)
{
    int failures = written_tests() + frame_tests();
#ifndef PLAIN /* which has nobody to differ from */
    failures += random_tests();
#endif
    return failures != 0;
}
