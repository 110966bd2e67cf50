/* both.h: one run, made by the library and by the plain interpreter of bench/ side by side. After each call the answers, all bytes of the two
 * states and all bytes of the two pages must be the same. Built with -DPLAIN, the plain interpreter stands in for the library, and only the words
 * that are expected can show a mistake. */
#ifndef BOTH_H
#define BOTH_H

#include <stdbool.h>
#include <stddef.h>
#include <stdint.h>

/* One program of so many is run: the builds with sanitizers and with wrong interpreters have 10. */
#ifndef SHARE
#define SHARE 1
#endif

enum { STATE = 37376, PAGE = 8192, AREA = 256, PROCESSES = 64, STATEMENTS = 256 };
enum { OURS, PLAIN_ONE, TWO };
enum { ADVANCED, WAITS, HAS_ENDED, FAILED = 16 };

struct both {
    const uint8_t *table;
    size_t length;
    uint8_t state[TWO][STATE], page[TWO][PAGE];
    uint8_t answer;           /* of the last step */
    bool is_copy[STATEMENTS]; /* the statements that assign several words */
    unsigned long steps, copies, looks; /* of all runs */
};

/* Says why, and is false. */
bool bad(const char *format, ...);
extern char why[500];

/* The table must be accepted. It begins with zeros. */
bool begin_both(struct both *r, const uint8_t *table, size_t length);

bool step_both(struct both *r, int process);
bool run_both(struct both *r, const uint8_t *schedule, size_t n);

/* Writes a word of an area into both states, as a host may where the state rule holds of it. Processes count from 1. */
void poke_both(struct both *r, int process, int at, int word);
int created(const struct both *r);

/* What joyce_look finds there is the word that is expected. */
bool look_is(struct both *r, int process, int variable, int place, int expected);

/* pseudo-random numbers: xorshift64* */
extern uint64_t seed;
int below(int limit);

/* the tests by file: how many failed */
int written_tests(void); /* written.c: each way to two places, and each pair of places */
int frame_tests(void);   /* frames.c: locals and var parameters of recursive calls */
int random_tests(void);  /* random.c: programs made at random */
int report(const char *name, bool is_ok, const char *format, ...);

#endif
