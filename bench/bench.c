/* Ours against the plain interpreter, on boards: a table BOARD.tab with a schedule BOARD.sch.
 *
 *     bench time ROUNDS COUNTS BOARD..   prints the tables: nanoseconds, the least of so many rounds, and the instructions that the file COUNTS gives
 *     bench count BOARD..                makes each call that is measured once; under callgrind, each leaves a dump with its name
 *
 * bench/run makes COUNTS of those dumps: lines of board, whose, what, number. Built with -DPLAIN, the plain interpreter stands in for ours. */
#include "measure.h"
#include "plain.h"
#ifndef PLAIN
#include "joyce.h"
#endif

#include <stdbool.h>

enum { STATE = 37376, PAGE = 8192, LONGEST = 7913, STEPS = 100000, FAILURE = 2 * (16384 + 9) };
enum { CALLS = 200, ZEROS = 1 }; /* the boards are of version 1, and begin with zeros */

struct calls {
    const char *name;
    uint32_t (*check)(const uint8_t *, size_t);
    uint32_t (*begin)(const uint8_t *, size_t, uint8_t *, size_t, uint32_t);
    uint32_t (*run)(const uint8_t *, size_t, uint8_t *, size_t, uint8_t *, size_t, const uint8_t *, size_t, uint8_t *, size_t);
};

static const struct calls calls[BOTH] = {
#ifdef PLAIN
    {"ours", plain_check, plain_begin, plain_run},
#else
    {"ours", joyce_check, joyce_begin, joyce_run},
#endif
    {"plain", plain_check, plain_begin, plain_run},
};

/* What is measured. NOTHING is a run call with no step: what the steps of a call are reckoned from. */
enum { CHECK, BEGIN, NOTHING, ONE, ALL, KINDS };
static const char *const kinds[KINDS] = {"check", "begin", "nothing", "one", "all"};

struct board {
    const char *name;
    uint8_t table[LONGEST + 1], schedule[STEPS + 1], answers[STEPS];
    size_t length, steps;
    uint8_t state[STATE], page[PAGE];       /* as begin leaves them */
    uint8_t later_state[STATE], later_page[PAGE]; /* half the schedule later */
    double took[KINDS][BOTH], instructions[KINDS][BOTH];
};

static size_t read_file(const char *name, const char *ending, uint8_t *bytes, size_t most)
{
    char path[500];
    snprintf(path, sizeof path, "%s.%s", name, ending);
    FILE *file = fopen(path, "rb");
    if (!file)
        stop(path, "cannot be read");
    size_t length = fread(bytes, 1, most, file);
    fclose(file);
    return length;
}

static void run(const struct calls *c, struct board *b, uint8_t *state, uint8_t *page, size_t from, size_t steps)
{
    if (c->run(b->table, b->length, state, STATE, page, PAGE, b->schedule + from, steps, b->answers + from, steps) != 0)
        stop(b->name, "run refuses");
}

/* Both do the whole schedule, and must agree in all bytes. */
static void compare(struct board *b)
{
    static uint8_t state[BOTH][STATE], page[BOTH][PAGE], answers[BOTH][STEPS];
    for (int k = 0; k < BOTH; k++) {
        if (calls[k].check(b->table, b->length) != 0 || calls[k].begin(b->table, b->length, state[k], STATE, ZEROS) != 0)
            stop(b->name, "the table is refused");
        memset(page[k], 0, PAGE);
        memcpy(b->state, state[k], STATE);
        memcpy(b->page, page[k], PAGE);
        run(&calls[k], b, state[k], page[k], 0, b->steps / 2);
        memcpy(b->later_state, state[k], STATE);
        memcpy(b->later_page, page[k], PAGE);
        run(&calls[k], b, state[k], page[k], b->steps / 2, b->steps - b->steps / 2);
        memcpy(answers[k], b->answers, b->steps);
    }
    if (memcmp(state[0], state[1], STATE) || memcmp(page[0], page[1], PAGE) || memcmp(answers[0], answers[1], b->steps))
        stop(b->name, "the two disagree");
}

static struct board *load(const char *name)
{
    struct board *b = calloc(1, sizeof *b);
    if (!b)
        stop(name, "no memory");
    b->name = strrchr(name, '/') ? strrchr(name, '/') + 1 : name;
    b->length = read_file(name, "tab", b->table, sizeof b->table);
    b->steps = read_file(name, "sch", b->schedule, sizeof b->schedule);
    if (b->steps < 2 * CALLS || b->steps > STEPS)
        stop(name, "a schedule of 400 to 100,000 steps is needed");
    compare(b);
    return b;
}

/* ---- time */

/* Calls of one kind, made again and again. One-step calls follow the second half of the schedule. */
static double turn(const struct calls *c, struct board *b, int kind)
{
    static uint8_t state[STATE], page[PAGE];
    static volatile uint32_t result;
    size_t half = b->steps / 2;
    bool is_later = kind == NOTHING || kind == ONE;
    memcpy(state, is_later ? b->later_state : b->state, STATE);
    memcpy(page, is_later ? b->later_page : b->page, PAGE);
    int n = kind == ALL ? 1 : CALLS;
    double begun = now();
    for (int i = 0; i < n; i++)
        switch (kind) {
        case CHECK: result = c->check(b->table, b->length); break;
        case BEGIN: result = c->begin(b->table, b->length, state, STATE, ZEROS); break;
        case NOTHING: run(c, b, state, page, half, 0); break;
        case ONE: run(c, b, state, page, half + (size_t)i, 1); break;
        default: run(c, b, state, page, 0, b->steps); break;
        }
    (void)result;
    return (now() - begun) / n;
}

/* Ours and the plain one take turns, board by board, so that no board meets a busy machine alone. The least of the turns counts: what else
 * the machine does only adds to one. */
static void measure(struct board **boards, int n, int rounds)
{
    for (int i = 0; i < rounds * n; i++)
        for (int kind = 0; kind < KINDS; kind++)
            for (int j = 0; j < BOTH; j++) {
                struct board *b = boards[i % n];
                int k = (i / n + j) % BOTH; /* who goes first changes */
                double took = turn(&calls[k], b, kind);
                if (i < n || took < b->took[kind][k])
                    b->took[kind][k] = took;
            }
}

/* ---- instructions */

static void dump_call(const struct board *b, int k, int kind)
{
    dump(b->name, calls[k].name, kinds[kind]);
}

/* One call of each kind. */
static void count(struct board *b)
{
    static uint8_t state[STATE], page[PAGE];
    size_t half = b->steps / 2;
    for (int k = 0; k < BOTH; k++) {
        CALLGRIND_ZERO_STATS;
        calls[k].check(b->table, b->length);
        dump_call(b, k, CHECK);
        CALLGRIND_ZERO_STATS;
        calls[k].begin(b->table, b->length, state, STATE, ZEROS);
        dump_call(b, k, BEGIN);
        memcpy(page, b->page, PAGE);
        CALLGRIND_ZERO_STATS;
        run(&calls[k], b, state, page, 0, b->steps);
        dump_call(b, k, ALL);
        memcpy(state, b->later_state, STATE);
        memcpy(page, b->later_page, PAGE);
        CALLGRIND_ZERO_STATS;
        run(&calls[k], b, state, page, half, 0);
        dump_call(b, k, NOTHING);
        CALLGRIND_ZERO_STATS;
        run(&calls[k], b, state, page, half, 1);
        dump_call(b, k, ONE);
    }
}

static void read_counts(struct board *b, const char *counts)
{
    for (int kind = 0; kind < KINDS; kind++)
        for (int k = 0; k < BOTH; k++)
            b->instructions[kind][k] = counted(counts, b->name, calls[k].name, kinds[kind]);
}

/* ---- tables */

/* What a step adds to a call without one. */
static void print_steps(const struct board *b)
{
    double ns[BOTH], instructions[BOTH];
    for (int k = 0; k < BOTH; k++) {
        ns[k] = (b->took[ALL][k] - b->took[NOTHING][k]) / (double)b->steps;
        instructions[k] = (b->instructions[ALL][k] - b->instructions[NOTHING][k]) / (double)b->steps;
    }
    printf("| %s |", b->name);
    print_pair(ns, 1);
    print_pair(instructions, 0);
    printf("\n");
}

static void print_calls(const struct board *b, int kind, double per)
{
    double ns[BOTH], instructions[BOTH];
    for (int k = 0; k < BOTH; k++) {
        ns[k] = b->took[kind][k] / per;
        instructions[k] = b->instructions[kind][k] / per;
    }
    printf("| %s | %zu |", b->name, b->length);
    print_pair(ns, per > 1 ? 2 : 0);
    print_pair(instructions, per > 1 ? 1 : 0);
    printf("\n");
}

static int by_length(const void *a, const void *b)
{
    size_t m = (*(struct board *const *)a)->length, n = (*(struct board *const *)b)->length;
    return (m > n) - (m < n);
}

static void print_tables(struct board **boards, int n)
{
    print_head("A step", "board", "ns", "instructions");
    for (int i = 0; i < n; i++)
        if (boards[i]->later_state[FAILURE] == 0) /* a run that has failed makes no steps */
            print_steps(boards[i]);
    qsort(boards, (size_t)n, sizeof *boards, by_length);
    print_head("A run call with one step", "board | bytes", "ns", "instructions");
    for (int i = 0; i < n; i++)
        print_calls(boards[i], ONE, 1);
    print_head("A check", "table | bytes", "ns a byte", "instructions a byte");
    for (int i = 0; i < n; i++)
        print_calls(boards[i], CHECK, (double)boards[i]->length);
    print_head("A begin", "table | bytes", "ns", "instructions");
    for (int i = 0; i < n; i++)
        print_calls(boards[i], BEGIN, 1);
}

int main(int argc, char **argv)
{
    bool is_time = argc > 2 && !strcmp(argv[1], "time");
    int first = is_time ? 4 : 2, n = argc - first, rounds = is_time ? atoi(argv[2]) : 1;
    if (argc < 3 || n < 1 || rounds < 1 || rounds > 100000 || (!is_time && strcmp(argv[1], "count"))) {
        fprintf(stderr, "usage: bench time ROUNDS COUNTS BOARD.. | bench count BOARD..\n");
        return 2;
    }
    struct board **boards = calloc((size_t)n, sizeof *boards);
    for (int i = 0; i < n; i++) {
        boards[i] = load(argv[first + i]);
        if (is_time)
            read_counts(boards[i], argv[3]);
        else
            count(boards[i]);
    }
    if (is_time) {
        measure(boards, n, rounds);
        print_tables(boards, n);
    }
    return 0;
}
