/* measure.h: what the benchmarks of boards and of texts share. Include it first. */
#ifndef MEASURE_H
#define MEASURE_H

#define _POSIX_C_SOURCE 199309L

#ifdef __has_include
#if __has_include(<valgrind/callgrind.h>)
#include <valgrind/callgrind.h>
#endif
#endif
#ifndef CALLGRIND_DUMP_STATS_AT
#define CALLGRIND_ZERO_STATS ((void)0)
#define CALLGRIND_DUMP_STATS_AT(what) ((void)(what))
#endif

#include <stdio.h>
#include <stdlib.h>
#include <string.h>
#include <time.h>

enum { OURS, PLAIN_ONE, BOTH };

static void stop(const char *name, const char *why)
{
    fprintf(stderr, "%s: %s\n", name, why);
    exit(1);
}

/* The processor's time in nanoseconds, so that what others take of it does not count. */
static double now(void)
{
    struct timespec t;
    clock_gettime(CLOCK_PROCESS_CPUTIME_ID, &t);
    return (double)t.tv_sec * 1e9 + (double)t.tv_nsec;
}

/* The instructions since the last CALLGRIND_ZERO_STATS are those of one call: a dump with its name, which bench/run makes a line of COUNTS. */
static void dump(const char *name, const char *whose, const char *what)
{
    char label[200];
    snprintf(label, sizeof label, "%s %s %s", name, whose, what);
    CALLGRIND_DUMP_STATS_AT(label);
}

/* The number of a line of COUNTS: name, whose, what, number; 0 where there is none. */
static double counted(const char *counts, const char *name, const char *whose, const char *what)
{
    char a[100], b[20], c[20];
    double number, found = 0;
    FILE *file = fopen(counts, "r");
    while (file && fscanf(file, "%99s %19s %19s %lf", a, b, c, &number) == 4)
        if (!strcmp(a, name) && !strcmp(b, whose) && !strcmp(c, what))
            found = number;
    if (file)
        fclose(file);
    return found;
}

static void print_head(const char *title, const char *first, const char *ns, const char *instructions)
{
    printf("\n%s\n\n| %s | ours, %s | plain, %s | ratio | ours, %s | plain, %s | ratio |\n", title, first, ns, ns, instructions, instructions);
    printf("|%s---|---|---|---|---|---|\n", strchr(first, '|') ? "---|---|" : "---|");
}

static void print_pair(const double pair[BOTH], int digits)
{
    if (pair[OURS] > 0 && pair[PLAIN_ONE] > 0)
        printf(" %.*f | %.*f | %.2f |", digits, pair[OURS], digits, pair[PLAIN_ONE], pair[OURS] / pair[PLAIN_ONE]);
    else
        printf(" - | - | - |");
}

#endif
