/* Replays step logs of an independent interpreter. A line 'ok NAME' or 'FAIL NAME: why' a test.
 *
 *     logs [older] zeros RUNS [EVERY]
 *     logs [older] numbered RUNS [EVERY]
 *     logs begins BEGINS
 *
 * Where EVERY is given, only every so manyth record is replayed. The older logs are of a time when a space had no effect: they are replayed with
 * every space made 510, with which the 256 words of an area decide alone, and then as they are, up to the first call that would pass its
 * process's reserve. RUNS holds records one after the other, each a program and a run of it. Words are two bytes, low first:
 *
 *     word L; L bytes of table
 *     numbered: one byte, the number that the run is begun with, 0 or 1. The others are older, and begun with 1
 *     word number of calls; for each call
 *         word number of pokes; each: word byte position in the page, word value; they are done before the call
 *         word n; n bytes of schedule; n bytes of answers
 *         word number of device words that the call changed; each: word byte position, word value
 *     word number of looks after the last call; each: word process, word variable, word place (numbered: 4 bytes each), 4 bytes result
 *
 * and BEGINS, one after the other: word L; L bytes of table; 4 bytes each: a number, the length of the lent state, what begin returns.
 *
 * The calls are those of joyce.h or, built with -DPLAIN, those of bench/plain.h. */
#include "plain.h"
#ifndef PLAIN
#include "joyce.h"
#endif

#include <stdarg.h>
#include <stdbool.h>
#include <stdio.h>
#include <stdlib.h>
#include <string.h>

enum { STATE = 37376, PAGE = 8192, LONGEST = 7913 }; /* the longest eight sections */
enum { LONG = 384 }; /* steps of a long call, in which the library uses rows of its plan again: more than the most nodes, 255 */
enum { EMPTY = 19, FULL = 22, UNSET = 31, UNSET_WORD = 32 };

struct calls {
    const char *name;
    uint32_t (*check)(const uint8_t *, size_t);
    uint32_t (*begin)(const uint8_t *, size_t, uint8_t *, size_t, uint32_t);
    uint32_t (*run)(const uint8_t *, size_t, uint8_t *, size_t, uint8_t *, size_t, const uint8_t *, size_t, uint8_t *, size_t);
    uint32_t (*look)(const uint8_t *, size_t, const uint8_t *, size_t, uint32_t, uint32_t, uint32_t);
};

static const struct calls plain = {"plain", plain_check, plain_begin, plain_run, plain_look};
#ifdef PLAIN
static const struct calls *const ours = &plain;
#else
static const struct calls joyce = {"joyce", joyce_check, joyce_begin, joyce_run, joyce_look};
static const struct calls *const ours = &joyce;
#endif

/* ---- results */

static int failures;
static char why[400];

static bool bad(const char *format, ...)
{
    va_list args;
    va_start(args, format);
    vsnprintf(why, sizeof why, format, args);
    va_end(args);
    return false;
}

static void report(const char *name, bool is_ok, size_t count, const char *what)
{
    if (is_ok) {
        printf("ok logs/%s/%s: %zu %s\n", ours->name, name, count, what);
    } else {
        printf("FAIL logs/%s/%s: %s\n", ours->name, name, why);
        failures++;
    }
    fflush(stdout);
}

/* ---- the records */

struct call {
    size_t pokes, steps, changes;
    const uint8_t *poke, *schedule, *answer, *change;
};

enum { PROCESS, VARIABLE, PLACE, RESULT, LOOK };

struct record {
    size_t length, calls, looks;
    uint32_t number; /* begin's */
    const uint8_t *table;
    const uint8_t *as_logged; /* the same; of the older logs with its own spaces */
    struct call *call;
    uint32_t (*look)[LOOK];
};

static struct record *records;
static size_t count;

struct reader { const uint8_t *at, *end; };

static size_t word(const uint8_t *p)
{
    return p[0] | (size_t)p[1] << 8;
}

static const uint8_t *take(struct reader *r, size_t n)
{
    if ((size_t)(r->end - r->at) < n) {
        fprintf(stderr, "the logs end early\n");
        exit(2);
    }
    const uint8_t *p = r->at;
    r->at += n;
    return p;
}

static size_t take_word(struct reader *r)
{
    return word(take(r, 2));
}

static uint32_t take_long(struct reader *r)
{
    const uint8_t *p = take(r, 4);
    return (uint32_t)(word(p) | word(p + 2) << 16);
}

static void *room(size_t n)
{
    void *p = malloc(n ? n : 1);
    if (!p) {
        fprintf(stderr, "no memory\n");
        exit(2);
    }
    return p;
}

static struct call read_call(struct reader *r)
{
    struct call c;
    c.pokes = take_word(r);
    c.poke = take(r, 4 * c.pokes);
    c.steps = take_word(r);
    c.schedule = take(r, c.steps);
    c.answer = take(r, c.steps);
    c.changes = take_word(r);
    c.change = take(r, 4 * c.changes);
    return c;
}

/* ---- what a table reserves */

enum { TYPES, FIELDS, VARIABLES, BLOCKS, ARGUMENTS, NODES, STATEMENTS, SECTIONS };
enum { AREA = 256, LINKS = 4, PROCEDURE = 2, VAR_PARAMETER = 2, LOCAL_CALL = 2, SPACE = 6, WIDEST = 510 };

struct sections {
    const uint8_t *entry[SECTIONS];
    int count[SECTIONS];
};

static const int sizes[SECTIONS] = {7, 1, 2, 8, 1, 5, 6};

static const uint8_t *entry(const struct sections *t, int section, size_t i)
{
    return t->entry[section] + i * (size_t)sizes[section];
}

/* Of a table that is accepted; an empty slot has no blocks here. */
static struct sections find_sections(const uint8_t *table, size_t length)
{
    struct sections t = {{0}, {0}};
    for (int i = 0; length > 0 && i < SECTIONS; i++) {
        t.count[i] = *table;
        t.entry[i] = table + 1;
        table += 1 + t.count[i] * sizes[i];
    }
    return t;
}

static int type_words(const struct sections *t, int type)
{
    const uint8_t *e = type < 3 ? NULL : entry(t, TYPES, (size_t)type - 3);
    int words = 0;
    if (!e || e[0] == 3)
        return 1;
    if (e[0] == 2)
        return ((int16_t)word(e + 5) - (int16_t)word(e + 3) + 1) * type_words(t, e[2]);
    for (int i = 0; i < e[2]; i++)
        words += type_words(t, *entry(t, FIELDS, (size_t)e[1] + (size_t)i));
    return words;
}

/* The words of a block's variables. */
static int block_words(const struct sections *t, size_t block)
{
    const uint8_t *b = entry(t, BLOCKS, block);
    int words = 0;
    for (size_t i = b[2]; i < (size_t)b[2] + b[4]; i++) {
        const uint8_t *v = entry(t, VARIABLES, i);
        words += v[0] == VAR_PARAMETER ? 1 : type_words(t, v[1]);
    }
    return words;
}

/* One call of each procedure of the module, and half its space. */
static int reserve(const struct sections *t, size_t module)
{
    int words = (int)word(entry(t, BLOCKS, module) + SPACE) / 2;
    for (size_t i = 0; i < (size_t)t->count[BLOCKS]; i++) {
        const uint8_t *b = entry(t, BLOCKS, i);
        if (b[0] == PROCEDURE && b[1] == module)
            words += LINKS + block_words(t, i);
    }
    return words;
}

static const uint8_t *widened(const uint8_t *table, size_t length)
{
    uint8_t *copy = room(length);
    memcpy(copy, table, length);
    struct sections t = find_sections(table, length);
    for (size_t i = 0; i < (size_t)t.count[BLOCKS]; i++) {
        const uint8_t *b = entry(&t, BLOCKS, i);
        if (b[0] != PROCEDURE) {
            copy[b + SPACE - table] = WIDEST % 256;
            copy[b + SPACE + 1 - table] = WIDEST / 256;
        }
    }
    return copy;
}

static struct record read_record(struct reader *r, bool is_numbered, bool is_older)
{
    struct record d;
    d.length = take_word(r);
    d.as_logged = take(r, d.length);
    d.table = is_older ? widened(d.as_logged, d.length) : d.as_logged;
    d.number = is_numbered ? *take(r, 1) : 1;
    d.calls = take_word(r);
    d.call = room(d.calls * sizeof *d.call);
    for (size_t i = 0; i < d.calls; i++)
        d.call[i] = read_call(r);
    d.looks = take_word(r);
    d.look = room(d.looks * sizeof *d.look);
    for (size_t i = 0; i < d.looks; i++)
        for (int k = 0; k < LOOK; k++)
            d.look[i][k] = is_numbered || k == RESULT ? take_long(r) : (uint32_t)take_word(r);
    return d;
}

static uint8_t *bytes; /* what the file holds: records point into it */

static bool read_file(const char *name, struct reader *r)
{
    FILE *file = fopen(name, "rb");
    if (!file || fseek(file, 0, SEEK_END))
        return false;
    size_t length = (size_t)ftell(file);
    bytes = room(length);
    rewind(file);
    *r = (struct reader){bytes, bytes + length};
    bool is_read = fread(bytes, 1, length, file) == length;
    fclose(file);
    return is_read;
}

static bool is_older, is_whole; /* all records are replayed */

static bool load(const char *name, bool is_numbered, size_t every)
{
    struct reader r;
    if (!read_file(name, &r))
        return false;
    for (size_t i = 0; r.at < r.end; i++) {
        if ((count & (count + 1)) == 0 && !(records = realloc(records, (2 * count + 2) * sizeof *records)))
            return false;
        records[count] = read_record(&r, is_numbered, is_older);
        if (i % every == 0) {
            count++;
        } else {
            if (is_older)
                free((void *)records[count].table);
            free(records[count].call);
            free(records[count].look);
        }
    }
    return count > 0;
}

/* ---- a run under way */

struct run {
    const struct calls *calls;
    size_t cut; /* the most steps of one call; 0 for all at once */
    size_t more; /* steps of process 0, which is none, that come after those of each call */
    uint8_t *state, *page;
};

static struct run make_run(const struct calls *calls, size_t cut)
{
    return (struct run){calls, cut, 0, room(STATE), room(PAGE)};
}

static void free_run(struct run *x)
{
    free(x->state);
    free(x->page);
}

static bool begin(struct run *x, const struct record *d)
{
    memset(x->state, 0xA5, STATE); /* begin fills all of it */
    memset(x->page, 0, PAGE);
    uint32_t r = x->calls->check(d->table, d->length);
    if (r != 0)
        return bad("check returns %u", r);
    r = x->calls->begin(d->table, d->length, x->state, STATE, d->number);
    return r == 0 || bad("begin returns %u", r);
}

static void put(uint8_t *page, const uint8_t *pairs, size_t n)
{
    for (; n > 0; n--, pairs += 4)
        memcpy(page + word(pairs), pairs + 2, 2);
}

/* The steps of one call, and those of process 0, which answer 3 or by what the run has failed, and change nothing. */
static uint32_t run_piece(struct run *x, const struct record *d, const uint8_t *schedule, uint8_t *answers, size_t n, bool *is_ok)
{
    size_t all = n + x->more;
    uint8_t *order = room(all), *given = room(all);
    memcpy(order, schedule, n);
    memset(order + n, 0, x->more);
    uint32_t r = x->calls->run(d->table, d->length, x->state, STATE, x->page, PAGE, order, all, given, all);
    size_t failure = word(x->state + 2 * 64 * 256 + 18);
    memcpy(answers, given, n);
    for (size_t i = n; r == 0 && *is_ok && i < all; i++)
        if (given[i] != (failure ? failure : 3))
            *is_ok = bad("a step of process 0 answers %u", given[i]);
    free(order);
    free(given);
    return r;
}

/* Steps, in slices of the exact length, so that a sanitizer sees what lies outside them. */
static bool steps(struct run *x, const struct record *d, const uint8_t *schedule, const uint8_t *answer, size_t n)
{
    size_t most = x->cut ? x->cut : n ? n : 1, done = 0;
    uint8_t *answers = room(n);
    bool is_ok = true;
    do {
        size_t piece = n - done < most ? n - done : most;
        uint32_t r = run_piece(x, d, schedule + done, answers, piece, &is_ok);
        if (r != 0)
            is_ok = bad("step %zu: run returns %u", done, r);
        for (size_t i = 0; is_ok && i < piece; i++)
            if (answers[i] != answer[done + i])
                is_ok = bad("step %zu of process %u answers %u, not %u", done + i, schedule[done + i], answers[i], answer[done + i]);
        done += piece;
    } while (is_ok && done < n);
    free(answers);
    return is_ok;
}

/* One call of the log: its pokes, its answers, and the page that it leaves. */
static bool replay_call(struct run *x, const struct record *d, const struct call *c)
{
    static uint8_t page[PAGE];
    put(x->page, c->poke, c->pokes);
    memcpy(page, x->page, PAGE);
    put(page, c->change, c->changes);
    if (!steps(x, d, c->schedule, c->answer, c->steps))
        return false;
    for (size_t i = 0; i < PAGE; i += 2)
        if (memcmp(page + i, x->page + i, 2) != 0)
            return bad("the device word at %zu is %zu, not %zu", i, word(x->page + i), word(page + i));
    return true;
}

static bool replay_looks(const struct run *x, const struct record *d)
{
    for (size_t i = 0; i < d->looks; i++) {
        const uint32_t *p = d->look[i];
        uint32_t r = x->calls->look(d->table, d->length, x->state, STATE, p[PROCESS], p[VARIABLE], p[PLACE]);
        if (r != p[RESULT])
            return bad("look at %u, %u, %u returns %u, not %u", p[PROCESS], p[VARIABLE], p[PLACE], r, p[RESULT]);
    }
    return true;
}

/* Says in which record the fault is. */
static bool in_record(size_t i, size_t call)
{
    char what[sizeof why];
    memcpy(what, why, sizeof why);
    return bad("run %zu, call %zu: %.300s", i, call, what);
}

/* ---- tests */

/* Every record, as it is logged. */
static bool agree(void)
{
    struct run x = make_run(ours, 0);
    bool is_ok = true;
    for (size_t i = 0; is_ok && i < count; i++) {
        const struct record *d = &records[i];
        size_t k = 0;
        is_ok = begin(&x, d);
        for (; is_ok && k < d->calls; k++)
            is_ok = replay_call(&x, d, &d->call[k]);
        is_ok = (is_ok && replay_looks(&x, d)) || in_record(i, k);
    }
    free_run(&x);
    return is_ok;
}

/* Every record by the rule of reserves, from the state and the table before each step: a local call of a process that works on its own variables
 * answers 22 where its frames and the new one would pass the reserve of its module. The older logs go on there; what is tested here answers 22 from there on. */
struct seen {
    size_t changed, by_reserve, by_area; /* runs that end before their log; local calls on own variables that fail by the reserve alone, by the area */
};

enum { NO_CALL = -1, FITS = 0, PASSES_RESERVE = 1, PASSES_AREA = 2 };

/* The limits that a local call of the process on its own variables would pass. */
static int limits_at(const struct sections *t, const uint8_t *state, int process)
{
    const uint8_t *first = state + 2 * 64 * AREA;
    if (word(first + 18) != 0 || process < 1 || process > (int)word(first + 16)) /* it has failed, or is not created */
        return NO_CALL;
    const uint8_t *record = first + 40 * (process - 1), *s = t->count[BLOCKS] ? entry(t, STATEMENTS, word(record + 4)) : NULL;
    if (!s || s[0] != LOCAL_CALL || word(record) != 2 || word(record + 10) != (size_t)process)
        return NO_CALL;
    size_t module = word(record + 2);
    int top = (int)word(record + 8), own = top - block_words(t, module), new = LINKS + block_words(t, s[1]);
    return (own + new > reserve(t, module) ? PASSES_RESERVE : 0) | (top + new > AREA ? PASSES_AREA : 0);
}

static bool reserve_step(struct run *x, const struct record *d, const struct sections *t, uint8_t process, uint8_t logged, bool *is_over,
                         struct seen *seen)
{
    int limits = *is_over ? NO_CALL : limits_at(t, x->state, process);
    uint8_t answer;
    if (limits > FITS && limits & PASSES_RESERVE && logged == 0) {
        *is_over = true;
        seen->changed++;
    }
    uint32_t r = ours->run(d->as_logged, d->length, x->state, STATE, x->page, PAGE, &process, 1, &answer, 1);
    if (r != 0)
        return bad("run returns %u", r);
    if (answer == FULL && limits == FITS)
        return bad("a call of process %u answers 22, and passes no limit", process);
    seen->by_reserve += answer == FULL && limits == PASSES_RESERVE;
    seen->by_area += answer == FULL && limits == PASSES_AREA;
    return answer == (*is_over ? FULL : logged) || bad("a step of process %u answers %u, and %u in the log", process, answer, logged);
}

static bool reserve_record(struct run *x, const struct record *d, struct seen *seen)
{
    struct sections t = find_sections(d->as_logged, d->length);
    struct record own = *d;
    bool is_over = false, is_ok;
    own.table = d->as_logged;
    is_ok = begin(x, &own);
    for (size_t k = 0; is_ok && k < d->calls; k++) {
        const struct call *c = &d->call[k];
        put(x->page, c->poke, c->pokes);
        for (size_t i = 0; is_ok && i < c->steps; i++)
            is_ok = reserve_step(x, d, &t, c->schedule[i], c->answer[i], &is_over, seen);
    }
    return is_ok && (is_over || replay_looks(x, &own));
}

static bool reserves(struct seen *seen)
{
    struct run x = make_run(ours, 1);
    bool is_ok = true;
    for (size_t i = 0; is_ok && i < count; i++)
        is_ok = reserve_record(&x, &records[i], seen) || in_record(i, 0);
    free_run(&x);
    if (!is_ok)
        return false;
    if (is_older)
        return seen->changed > 0 || !is_whole || bad("no run ends before its log");
    return (seen->changed == 0 && ((seen->by_reserve > 0 && seen->by_area > 0) || !is_whole)) ||
           bad("%zu runs end before their logs; %zu calls fail by the reserve alone, %zu by the area", seen->changed, seen->by_reserve, seen->by_area);
}

/* A record under either number: the answers are the same up to the first 31 of the run that begins unset, and 31 from there on; up to there the
 * page is the same too, and so are the words that are looked at in the end, unless they are unset. Begun with 1 no step answers 31. */
struct pair {
    struct run zeros, unset;
    bool has_failed; /* the one that began unset, with 31 */
};

static bool both_step(struct pair *x, const struct record *d, const uint8_t *process)
{
    uint8_t old, new;
    uint32_t r = ours->run(d->table, d->length, x->zeros.state, STATE, x->zeros.page, PAGE, process, 1, &old, 1);
    uint32_t s = ours->run(d->table, d->length, x->unset.state, STATE, x->unset.page, PAGE, process, 1, &new, 1);
    if (r != 0 || s != 0)
        return bad("run returns %u begun with 1, and %u begun with 0", r, s);
    x->has_failed = x->has_failed || new == UNSET;
    if (old == UNSET || new == EMPTY || new != (x->has_failed ? UNSET : old))
        return bad("a step of process %u answers %u begun with 1, and %u begun with 0", *process, old, new);
    return x->has_failed || memcmp(x->zeros.page, x->unset.page, PAGE) == 0 || bad("the pages differ after a step of process %u", *process);
}

static bool both_look(const struct pair *x, const struct record *d, const uint32_t *at)
{
    uint32_t r = ours->look(d->table, d->length, x->zeros.state, STATE, at[PROCESS], at[VARIABLE], at[PLACE]);
    uint32_t s = ours->look(d->table, d->length, x->unset.state, STATE, at[PROCESS], at[VARIABLE], at[PLACE]);
    if (r != UNSET_WORD && (s == r || (s == UNSET_WORD && r == 65536)))
        return true;
    return bad("look at %u, %u, %u returns %u begun with 1, and %u begun with 0", at[PROCESS], at[VARIABLE], at[PLACE], r, s);
}

static bool both_begin(struct pair *x, const struct record *d)
{
    struct record a = *d, b = *d;
    bool is_ok;
    a.number = 1;
    b.number = 0;
    x->has_failed = false;
    is_ok = begin(&x->zeros, &a) && begin(&x->unset, &b);
    for (size_t k = 0; is_ok && k < d->calls; k++) {
        const struct call *c = &d->call[k];
        put(x->zeros.page, c->poke, c->pokes);
        put(x->unset.page, c->poke, c->pokes);
        for (size_t i = 0; is_ok && i < c->steps; i++)
            is_ok = both_step(x, d, c->schedule + i);
    }
    for (size_t i = 0; is_ok && i < d->looks && !x->has_failed; i++)
        is_ok = both_look(x, d, d->look[i]);
    return is_ok;
}

static bool either_number(size_t *unset_runs)
{
    struct pair x = {make_run(ours, 1), make_run(ours, 1), false};
    bool is_ok = true;
    for (size_t i = 0; is_ok && i < count; i++) {
        is_ok = both_begin(&x, &records[i]) || in_record(i, 0);
        *unset_runs += is_ok && x.has_failed;
    }
    free_run(&x.zeros);
    free_run(&x.unset);
    return is_ok && ((*unset_runs > 0 && *unset_runs < count) || bad("%zu of %zu runs fail with 31", *unset_runs, count));
}

/* Two runs of each record, which must leave the same states: calls as they are logged, and cut or made longer; longer ones beside single steps. */
static bool same_states(const struct calls *other, size_t cut, size_t more, size_t *done)
{
    struct run x = make_run(ours, more ? 1 : 0), y = make_run(other, cut);
    bool is_ok = true;
    y.more = more;
    for (size_t i = 0; is_ok && i < count; i++) {
        const struct record *d = &records[i];
        size_t k = 0;
        is_ok = begin(&x, d) && begin(&y, d);
        for (; is_ok && k < d->calls; k++) {
            is_ok = replay_call(&x, d, &d->call[k]) && replay_call(&y, d, &d->call[k]);
            for (size_t at = 0; is_ok && at < STATE; at += 2)
                if (memcmp(x.state + at, y.state + at, 2) != 0)
                    is_ok = bad("byte %zu of the state: %zu and %zu", at, word(x.state + at), word(y.state + at));
            *done += d->call[k].steps;
        }
        if (!is_ok)
            in_record(i, k);
    }
    free_run(&x);
    free_run(&y);
    return is_ok;
}

/* How many calls from k on can be one: a later one may have no pokes. */
static size_t joint(const struct record *d, size_t k)
{
    size_t end = k + 1;
    while (end < d->calls && d->call[end].pokes == 0)
        end++;
    return end - k;
}

/* The calls from k on as one, on y; x has done them one by one. */
static bool replay_joint(struct run *y, const struct record *d, size_t k, size_t n)
{
    size_t length = 0;
    for (size_t i = k; i < k + n; i++)
        length += d->call[i].steps;
    uint8_t *schedule = room(length), *answer = room(length);
    length = 0;
    for (size_t i = k; i < k + n; length += d->call[i++].steps) {
        memcpy(schedule + length, d->call[i].schedule, d->call[i].steps);
        memcpy(answer + length, d->call[i].answer, d->call[i].steps);
    }
    put(y->page, d->call[k].poke, d->call[k].pokes);
    bool is_ok = steps(y, d, schedule, answer, length);
    free(schedule);
    free(answer);
    return is_ok;
}

/* Calls with no poke between them, joined. */
static bool joined(size_t *done)
{
    struct run x = make_run(ours, 0), y = make_run(ours, 0);
    bool is_ok = true;
    for (size_t i = 0; is_ok && i < count; i++) {
        const struct record *d = &records[i];
        size_t k = 0, n;
        is_ok = begin(&x, d) && begin(&y, d);
        for (; is_ok && k < d->calls; k += n) {
            n = joint(d, k);
            for (size_t j = k; is_ok && j < k + n; j++)
                is_ok = replay_call(&x, d, &d->call[j]);
            is_ok = is_ok && replay_joint(&y, d, k, n);
            if (is_ok && (memcmp(x.state, y.state, STATE) != 0 || memcmp(x.page, y.page, PAGE) != 0))
                is_ok = bad("the state or the page differs");
            *done += n > 1;
        }
        if (!is_ok)
            in_record(i, k);
    }
    free_run(&x);
    free_run(&y);
    return is_ok;
}

/* ---- refusals: each is tried on a run as the log leaves it, and changes no lent byte */

enum { ROOM = 64 };

struct lent {
    uint8_t table[LONGEST + 1], state[STATE + 1], page[PAGE + 1], schedule[LONG], answers[LONG];
};

static struct lent now, before; /* what is lent, and a copy */

static bool nothing_changed(void)
{
    return memcmp(&now, &before, sizeof now) == 0 || bad("a refusal has changed a byte");
}

static bool refused(const char *what, uint32_t result, uint32_t expected)
{
    return result == expected ? nothing_changed() : bad("%s returns %u, not %u", what, result, expected);
}

static uint32_t run_lengths(size_t table, size_t state, size_t page, size_t schedule, size_t answers)
{
    return ours->run(now.table, table, now.state, state, now.page, page, now.schedule, schedule, now.answers, answers);
}

static bool lengths_refused(size_t n)
{
    static const size_t states[] = {0, STATE - 1, STATE + 1, 35328}, pages[] = {0, PAGE - 1, PAGE + 1, STATE}; /* version 1's states too */
    static const uint32_t wrong[] = {2, 256, 65536, UINT32_MAX};
    bool is_ok = true;
    for (size_t i = 0; is_ok && i < 4; i++) {
        is_ok = refused("begin of a wrong state", ours->begin(now.table, n, now.state, states[i], (uint32_t)i % 2), 1)
            && refused("begin with a wrong number", ours->begin(now.table, n, now.state, STATE, wrong[i]), 1)
            && refused("begin of a wrong table with a wrong number", ours->begin(now.table, n + 1, now.state, STATE, wrong[i]), 1)
            && refused("look at a wrong state", ours->look(now.table, n, now.state, states[i], 1, 0, 0), 1)
            && refused("run of a wrong state", run_lengths(n, states[i], PAGE, ROOM, ROOM), 1)
            && refused("run with a wrong page", run_lengths(n, STATE, pages[i], ROOM, ROOM), 1)
            && refused("run with few answers", run_lengths(n, STATE, PAGE, ROOM, ROOM - 1 - i), 1)
            && refused("run of a wrong table and page", run_lengths(n + 1, STATE, pages[i], ROOM, ROOM), 1);
    }
    return is_ok;
}

/* A table has the verdict of check in every call. */
static bool table_refused(size_t n)
{
    uint32_t verdict = ours->check(now.table, n);
    if (verdict == 0)
        return true;
    return refused("begin", ours->begin(now.table, n, now.state, STATE, 0), verdict)
        && refused("begin", ours->begin(now.table, n, now.state, STATE, 1), verdict)
        && refused("run", run_lengths(n, STATE, PAGE, ROOM, ROOM), verdict)
        && refused("run of nothing", run_lengths(n, STATE, PAGE, 0, 0), verdict)
        && refused("look", ours->look(now.table, n, now.state, STATE, 1, 0, 0), verdict);
}

static bool looks_refused(size_t n)
{
    static const uint32_t asked[][3] = {{0, 0, 0}, {65, 0, 0}, {257, 0, 0}, {UINT32_MAX, 0, 0}, {1, 255, 0}, {1, 256, 0},
                                        {1, 65536, 0}, {1, UINT32_MAX, 0}, {1, 0, 201}, {1, 0, 65536}, {1, 0, UINT32_MAX}};
    bool is_ok = true;
    for (size_t i = 0; is_ok && i < sizeof asked / sizeof *asked; i++)
        is_ok = refused("look", ours->look(now.table, n, now.state, STATE, asked[i][0], asked[i][1], asked[i][2]), 11);
    return is_ok;
}

/* Answers beyond the schedule's stay, be it short or long, and an empty schedule changes nothing. */
static bool later_answers_stay(size_t n)
{
    static const size_t turns[] = {ROOM / 2, LONG - ROOM / 2};
    if (!refused("run of nothing", run_lengths(n, STATE, PAGE, 0, ROOM), 0))
        return false;
    for (int i = 0; i < 2; i++) {
        uint32_t r = run_lengths(n, STATE, PAGE, turns[i], LONG);
        if (r != 0)
            return bad("run returns %u", r);
        if (memcmp(now.answers + turns[i], before.answers + turns[i], LONG - turns[i]) != 0)
            return bad("a later answer byte has changed");
    }
    return true;
}

/* ---- pseudo-random numbers: xorshift64*, a fixed seed a test */

static uint64_t seed;

static uint32_t below(uint32_t limit)
{
    seed ^= seed >> 12;
    seed ^= seed << 25;
    seed ^= seed >> 27;
    return (uint32_t)((seed * 0x2545F4914F6CDD1Du) >> 33) % limit;
}

/* What is lent: the table, and state and page after the first calls of a record. */
static bool lend(struct run *x, const struct record *d, size_t calls)
{
    if (!begin(x, d))
        return false;
    for (size_t k = 0; k < calls; k++)
        if (!replay_call(x, d, &d->call[k]))
            return false;
    memcpy(now.table, d->table, d->length);
    memcpy(now.state, x->state, STATE);
    memcpy(now.page, x->page, PAGE);
    for (size_t i = 0; i < LONG; i++) {
        now.schedule[i] = (uint8_t)below(x->state[2 * (16384 + 8)] + 2u);
        now.answers[i] = (uint8_t)below(256);
    }
    before = now;
    return true;
}

static bool refusals(void)
{
    struct run x = make_run(ours, 0);
    bool is_ok = true;
    seed = 11;
    for (size_t i = 0; is_ok && i < count; i++) {
        const struct record *d = &records[i];
        is_ok = lend(&x, d, d->calls) && lengths_refused(d->length) && looks_refused(d->length)
            && (d->length == 0 || table_refused(d->length - 1)) && table_refused(d->length + 1);
        for (int round = 0; is_ok && d->length > 0 && round < 10; round++) {
            size_t at = below((uint32_t)d->length);
            now.table[at] = before.table[at] = (uint8_t)below(20);
            is_ok = table_refused(d->length);
            now.table[at] = before.table[at] = d->table[at];
        }
        is_ok = (is_ok && later_answers_stay(d->length)) || in_record(i, d->calls);
    }
    free_run(&x);
    return is_ok;
}

/* ---- damaged states: some words of a state that a log reaches are changed. The plain interpreter is the second opinion. */

static size_t word_at(size_t i)
{
    return word(before.state + 2 * i);
}

static void set_word(size_t i, uint32_t new)
{
    now.state[2 * i] = (uint8_t)new;
    now.state[2 * i + 1] = (uint8_t)(new >> 8);
}

/* A word that the state rule reads, as a rule, or marks of words in use. */
static size_t pick_word(void)
{
    size_t p = below((uint32_t)word_at(16384 + 8)), record = 16384 + 20 * p, top = word_at(record + 4);
    size_t at = below(top ? (uint32_t)top : 8);
    switch (below(5)) {
    case 0:
    case 1: return record + below(11);
    case 2: return 17664 + 16 * p + at / 16;
    default: return 256 * p + at;
    }
}

static void damage(void)
{
    for (uint32_t changes = 1 + below(2); changes > 0; changes--) {
        size_t at = pick_word();
        uint32_t old = (uint32_t)word_at(at), how = below(4);
        uint32_t new = how == 0 ? below(65536) : how == 1 ? below(70) : how == 2 ? old + below(5) - 2 : (uint32_t)word_at(pick_word());
        set_word(at, new);
    }
    before = now;
}

/* Words that say who holds and works on what: the holder, status or statement of a process, what a call and its caller work on, and what a var
 * parameter is bound to. */
static void forge(void)
{
    uint32_t created = (uint32_t)word_at(16384 + 8), p = below(created), any = below(created);
    for (int tries = 0; tries < 8 && word_at(16384 + 20 * p + 7) == 0; tries++) /* as a rule one that is in a call */
        p = below(created);
    size_t record = 16384 + 20 * p, other = 16384 + 20 * any, frame = 256 * p + word_at(record + 3);
    switch (below(6)) {
    case 0: set_word(other + 6, below(created + 1)); break;
    case 1: set_word(record + 5, any + 1); break;
    case 2: set_word(frame + 2, any + 1); break;
    case 3: set_word(frame + 4 + below(3), 256 * any + below(6)); break;
    case 4: set_word(other, 1 + below(3)); break;
    default: set_word(record + 2, (uint32_t)word_at(record + 2) + below(5) - 2); break;
    }
    before = now;
}

static bool looks_alike(size_t n, uint32_t verdict)
{
    uint32_t p = below(6), v = below(12), k = below(4);
    uint32_t r = ours->look(now.table, n, now.state, STATE, p, v, k), s = plain.look(now.table, n, now.state, STATE, p, v, k);
    if (r != s)
        return bad("look at %u, %u, %u returns %u, and %u by the plain interpreter", p, v, k, r, s);
    return verdict != 0 ? r == verdict || bad("look returns %u, and run %u", r, verdict) : true;
}

/* Both run it alike, in a short call or a long one, and what is not refused is left in a state that meets the rule. */
static bool run_alike(size_t n, size_t seen[2])
{
    static struct lent other;
    size_t turns = below(2) ? ROOM : LONG;
    other = now;
    uint32_t r = run_lengths(n, STATE, PAGE, turns, turns);
    uint32_t s = plain.run(other.table, n, other.state, STATE, other.page, PAGE, other.schedule, turns, other.answers, turns);
    if (r != s || (r != 0 && r != 10))
        return bad("run returns %u, and %u by the plain interpreter", r, s);
    if (memcmp(&now, &other, sizeof now) != 0)
        return bad("what is lent differs from what the plain interpreter leaves");
    seen[r != 0]++;
    if (r != 0)
        return nothing_changed() && looks_alike(n, 10);
    r = run_lengths(n, STATE, PAGE, 0, 0);
    return r == 0 ? looks_alike(n, 0) : bad("a run reaches a state that it refuses with %u", r);
}

static bool damaged(size_t *done, void (*how)(void))
{
    struct run x = make_run(ours, 0);
    size_t seen[2] = {0};
    bool is_ok = true;
    seed = 35328;
    for (size_t i = 0; is_ok && i < 4 * count; i++) {
        const struct record *d = &records[i % count];
        size_t calls = below((uint32_t)d->calls + 1);
        is_ok = lend(&x, d, calls);
        struct lent *sound = room(sizeof now);
        if (is_ok && run_lengths(d->length, STATE, PAGE, below(ROOM), ROOM) != 0) /* into the middle of a call */
            is_ok = bad("a run from a state that a log reaches is refused");
        *sound = now;
        for (int round = 0; is_ok && round < 20; round++) {
            now = before = *sound;
            how();
            is_ok = run_alike(d->length, seen);
        }
        free(sound);
        if (!is_ok)
            in_record(i % count, calls);
    }
    free_run(&x);
    *done = seen[0] + seen[1];
    return is_ok && ((seen[0] > 0 && seen[1] > 0) || bad("%zu states meet the rule and %zu do not", seen[0], seen[1]));
}

/* ---- begins */

/* The state is lent in as many bytes as the record says, full of others; a refusal changes none, and else all are written. */
static bool begins_alike(struct reader *r, uint32_t *expected)
{
    size_t n = take_word(r);
    const uint8_t *table = take(r, n);
    uint32_t number = take_long(r), length = take_long(r);
    *expected = take_long(r);
    uint8_t *state = room(length), *again = room(length);
    bool is_ok = true;
    memset(state, 0xA5, length);
    memset(again, 0x5A, length);
    uint32_t got = ours->begin(table, n, state, length, number), second = ours->begin(table, n, again, length, number);
    if (got != *expected || second != got)
        is_ok = bad("begin with number %u and %u bytes of state returns %u, not %u", number, length, got, *expected);
    for (uint32_t i = 0; is_ok && i < length; i++)
        if (*expected == 0 ? state[i] != again[i] : state[i] != 0xA5 || again[i] != 0x5A)
            is_ok = bad("byte %u of the state is %u and %u", i, state[i], again[i]);
    free(state);
    free(again);
    return is_ok;
}

static bool begins(const char *name, size_t *done)
{
    struct reader r;
    size_t seen[10] = {0};
    if (!read_file(name, &r))
        return bad("%s cannot be read", name);
    for (; r.at < r.end; ++*done) {
        uint32_t expected;
        if (!begins_alike(&r, &expected))
            return in_record(*done, 0);
        seen[expected < 10 ? expected : 9]++;
    }
    return (seen[0] > 0 && seen[1] > 0 && *done > seen[0] + seen[1]) || bad("%zu done, %zu wrong, %zu begins", seen[0], seen[1], *done);
}

static void replay(void)
{
    static const size_t cuts[] = {1, 2, 3, 5, 7, 11, 64};
    report("agree", agree(), count, "runs");
    size_t done = 0;
    bool is_ok;
    for (size_t i = 0; i < sizeof cuts / sizeof *cuts; i++) {
        char name[40];
        snprintf(name, sizeof name, "cut_%zu", cuts[i]);
        done = 0;
        is_ok = same_states(ours, cuts[i], 0, &done);
        report(name, is_ok, done, "steps");
    }
    done = 0;
    is_ok = same_states(ours, 0, LONG, &done);
    report("long", is_ok, done, "steps, in long calls");
    done = 0;
    is_ok = joined(&done);
    report("joined", is_ok, done, "joints");
    if (ours != &plain) {
        done = 0;
        is_ok = same_states(&plain, 1, 0, &done);
        report("second_opinion", is_ok, done, "steps");
    }
    done = 0;
    is_ok = either_number(&done);
    report("either_number", is_ok, done, "runs that fail with 31 where they begin unset");
    struct seen seen = {0, 0, 0};
    is_ok = reserves(&seen);
    report("reserves", is_ok, is_older ? seen.changed : seen.by_reserve, is_older ? "runs end before their logs" : "calls fail by the reserve alone");
    report("refusals", refusals(), count, "runs");
    done = 0;
    is_ok = damaged(&done, damage);
    report("damaged", is_ok, done, "states");
    is_ok = damaged(&done, forge);
    report("forged", is_ok, done, "states");
}

int main(int argc, char **argv)
{
    is_older = argc > 1 && !strcmp(argv[1], "older");
    argc -= is_older;
    argv += is_older;
    size_t every = argc == 4 ? strtoul(argv[3], NULL, 10) : 1;
    is_whole = every == 1;
    bool is_numbered = argc > 1 && !strcmp(argv[1], "numbered"), is_runs = is_numbered || (argc > 1 && !strcmp(argv[1], "zeros"));
    if (argc == 3 && !strcmp(argv[1], "begins")) {
        size_t done = 0;
        bool is_ok = begins(argv[2], &done);
        report("begins", is_ok, done, "begins");
    } else if (argc < 3 || argc > 4 || every == 0 || !is_runs || !load(argv[2], is_numbered, every)) {
        fprintf(stderr, "usage: logs [older] zeros|numbered RUNS [EVERY] | logs begins BEGINS\n");
        return 2;
    } else {
        replay();
    }
    return failures > 0;
}
