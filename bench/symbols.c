/* joyce_symbols against the plain scanners, on texts: each file as it is, and repeated up to the longest text.
 *
 *     symbols time ROUNDS COUNTS TEXT..   prints tables: nanoseconds a byte, the least of so many rounds, and the instructions that COUNTS gives
 *     symbols count TEXT..                makes each call that is measured once; under callgrind, each leaves a dump with its name
 *
 * Built with -DPLAIN, the plain scanner stands in for ours. */
#include "measure.h"
#include "scanner.h"
#ifndef PLAIN
#include "joyce.h"
#endif

#include <stdbool.h>

enum { ONCE = BOTH, ALL }; /* the plain one that scans once */
enum { LONGEST = 65535, SIZE = 7, BYTES = 200000 }; /* a turn is as many calls as take so many bytes */

typedef uint32_t split(const uint8_t *, size_t, uint8_t *, size_t);

static const struct {
    const char *name;
    split *symbols;
} calls[ALL] = {
#ifdef PLAIN
    {"ours", plain_symbols},
#else
    {"ours", joyce_symbols},
#endif
    {"plain", plain_symbols},
    {"once", plain_symbols_once},
};

struct text {
    const char *name, *what;
    uint8_t bytes[LONGEST];
    size_t length;
    double took[ALL];
};

static uint8_t out[ALL][SIZE * LONGEST];

static uint32_t call(const struct text *t, int k)
{
    return calls[k].symbols(t->bytes, t->length, out[k], SIZE * t->length);
}

/* All split the text, and must agree in all bytes. */
static void compare(const struct text *t)
{
    uint32_t ours = call(t, OURS);
    if (ours < 65536)
        stop(t->name, "the text is refused");
    for (int k = PLAIN_ONE; k < ALL; k++)
        if (call(t, k) != ours || memcmp(out[OURS], out[k], SIZE * t->length))
            stop(t->name, "they disagree");
}

static struct text *load(const char *path, bool is_repeated)
{
    struct text *t = calloc(1, sizeof *t);
    FILE *file = fopen(path, "rb");
    if (!file || !t)
        stop(path, "cannot be read");
    t->name = strrchr(path, '/') ? strrchr(path, '/') + 1 : path;
    t->what = is_repeated ? "repeated" : "once";
    size_t once = t->length = fread(t->bytes, 1, LONGEST, file);
    fclose(file);
    for (; is_repeated && once > 0 && t->length + once <= LONGEST; t->length += once)
        memcpy(t->bytes + t->length, t->bytes, once);
    compare(t);
    return t;
}

static double turn(const struct text *t, int k)
{
    static volatile uint32_t result;
    int n = (int)(BYTES / t->length) + 1;
    double begun = now();
    for (int i = 0; i < n; i++)
        result = call(t, k);
    (void)result;
    return (now() - begun) / n;
}

/* Ours and the plain ones take turns; the least counts. */
static void measure(struct text **texts, int n, int rounds)
{
    for (int i = 0; i < rounds * n; i++)
        for (int j = 0; j < ALL; j++) {
            struct text *t = texts[i % n];
            int k = (i / n + j) % ALL; /* who goes first changes */
            double took = turn(t, k);
            if (i < n || took < t->took[k])
                t->took[k] = took;
        }
}

static void count(const struct text *t)
{
    for (int k = 0; k < ALL; k++) {
        CALLGRIND_ZERO_STATS;
        call(t, k);
        dump(t->name, calls[k].name, t->what);
    }
}

/* Ours beside one of the plain ones. */
static void print_text(const struct text *t, const char *counts, int plain)
{
    double ns[BOTH], instructions[BOTH];
    for (int i = 0; i < BOTH; i++) {
        int k = i == OURS ? OURS : plain;
        ns[i] = t->took[k] / (double)t->length;
        instructions[i] = counted(counts, t->name, calls[k].name, t->what) / (double)t->length;
    }
    printf("| %s, %s | %zu |", t->name, t->what, t->length);
    print_pair(ns, 2);
    print_pair(instructions, 1);
    printf("\n");
}

int main(int argc, char **argv)
{
    bool is_time = argc > 2 && !strcmp(argv[1], "time");
    int first = is_time ? 4 : 2, n = 2 * (argc - first), rounds = is_time ? atoi(argv[2]) : 1;
    if (argc < 3 || n < 1 || rounds < 1 || rounds > 100000 || (!is_time && strcmp(argv[1], "count"))) {
        fprintf(stderr, "usage: symbols time ROUNDS COUNTS TEXT.. | symbols count TEXT..\n");
        return 2;
    }
    struct text **texts = calloc((size_t)n, sizeof *texts);
    for (int i = 0; texts && i < n; i++) {
        texts[i] = load(argv[first + i / 2], i % 2);
        if (!is_time)
            count(texts[i]);
    }
    if (!is_time || !texts)
        return texts ? 0 : 1;
    measure(texts, n, rounds);
    print_head("The symbols of a text", "text | bytes", "ns a byte", "instructions a byte");
    for (int i = 0; i < n; i++)
        print_text(texts[i], argv[3], PLAIN_ONE);
    print_head("The same, the plain one scanning once, into memory of its own", "text | bytes", "ns a byte", "instructions a byte");
    for (int i = 0; i < n; i++)
        print_text(texts[i], argv[3], ONCE);
    return 0;
}
