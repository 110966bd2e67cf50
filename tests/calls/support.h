/* support.h: what the tests of the calls share: results, files, random numbers, and slices between pages that may not be touched. */
#ifndef SUPPORT_H
#define SUPPORT_H

#include "joyce.h"

#include <stdbool.h>
#include <stddef.h>
#include <stdint.h>

/* The tests that repeat something do so a share of the times: the build with sanitizers has 10. */
#ifndef SHARE
#define SHARE 1
#endif

/* ---- results: a line 'ok calls/NAME' or 'FAIL calls/NAME: why' a test */

void run_test(const char *name, bool (*test)(void));
bool bad(const char *format, ...); /* says why, and is false */
extern int failures;

/* ---- tables */

struct table {
    const uint8_t *bytes;
    size_t length;
    uint32_t verdict;
};

extern struct table *tables; /* outside vectors, and then the board of the example */
extern size_t table_count;
extern struct table board;

void load_tables(const char *vectors);
struct table table_of(uint32_t verdict, size_t i); /* the i-th of that verdict, going round */

/* ---- pseudo-random numbers: xorshift64* */

extern uint64_t seed;
uint32_t below(uint32_t limit);

/* ---- one call, its slices, and what is left of them */

enum call { CHECK, BEGIN, RUN, LOOK };
enum slice { TABLE, STATE, PAGE, SCHEDULE, ANSWERS, SLICES };

struct lent {
    const uint8_t *bytes[SLICES];
    size_t lengths[SLICES];
    uint32_t process, variable, place; /* of look */
    uint32_t number;                   /* of begin */
};

/* Makes a call on copies of the slices. Each copy stands with its last byte before a page that may not be touched (or its first byte after
 * one), in a room of its own; what the call may only read may not be written. */
void open_rooms(void);
uint32_t call(enum call which, const struct lent *lent, bool at_end);
const uint8_t *left(enum slice slice);   /* the copy, as the call left it */
bool is_room_kept(enum slice slice);     /* no byte of the room changed, the slice's own included */
bool is_outside_kept(enum slice slice);  /* no byte of the room beside the slice changed */

/* The call returns that refusal and changes no byte, both ways round. */
bool is_refused(enum call which, const struct lent *lent, uint32_t refusal);

/* ---- short forms */

struct run_state {
    struct table table;
    uint8_t state[JOYCE_STATE_SIZE], page[JOYCE_PAGE_SIZE];
};

bool begin(struct run_state *r, struct table table); /* with zeros, as in version 1 */
bool begin_with(struct run_state *r, struct table table, uint32_t number);
bool run_turns(struct run_state *r, const uint8_t *schedule, size_t length, uint8_t *answers);
struct lent lend(struct run_state *r, const uint8_t *schedule, size_t length, const uint8_t *answers);
bool is_answer(unsigned answer);

/* So many turns more, at random from the seed as it stands. */
bool advance(struct run_state *r, unsigned turns);

#endif
