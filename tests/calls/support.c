#define _DEFAULT_SOURCE
#include "support.h"
#include "board.h"

#include <pthread.h>
#include <setjmp.h>
#include <signal.h>
#include <stdarg.h>
#include <stdio.h>
#include <stdlib.h>
#include <string.h>
#include <sys/mman.h>
#include <unistd.h>

/* ---- results */

int failures;
static char why[400];
static sigjmp_buf crashed;
static pthread_t main_thread;

bool bad(const char *format, ...)
{
    va_list args;
    va_start(args, format);
    vsnprintf(why, sizeof why, format, args);
    va_end(args);
    return false;
}

static void on_signal(int number)
{
    static const char message[] = "FAIL calls: a signal in another thread\n";
    if (pthread_equal(pthread_self(), main_thread))
        siglongjmp(crashed, number);
    _exit(write(STDOUT_FILENO, message, sizeof message - 1) < 0 ? 2 : 1);
}

void run_test(const char *name, bool (*test)(void))
{
    static const int signals[] = {SIGSEGV, SIGBUS, SIGILL, SIGFPE, SIGALRM};
    struct sigaction action = {.sa_handler = on_signal};
    main_thread = pthread_self();
    for (size_t i = 0; i < sizeof signals / sizeof *signals; i++)
        sigaction(signals[i], &action, NULL);
    int number = sigsetjmp(crashed, 1);
    alarm(300);
    if (number ? bad("signal %d", number) : test()) {
        printf("ok calls/%s\n", name);
    } else {
        printf("FAIL calls/%s: %s\n", name, why);
        failures++;
    }
    fflush(stdout);
}

/* ---- tables */

struct table *tables, board;
size_t table_count;

static uint8_t *read_file(const char *name, size_t *length)
{
    FILE *file = fopen(name, "rb");
    uint8_t *bytes = NULL;
    if (file && fseek(file, 0, SEEK_END) == 0) {
        *length = (size_t)ftell(file);
        rewind(file);
        bytes = malloc(*length + 1);
    }
    if (!bytes || fread(bytes, 1, *length, file) != *length) {
        fprintf(stderr, "cannot read %s\n", name);
        exit(2);
    }
    fclose(file);
    return bytes;
}

static void add_table(const uint8_t *bytes, size_t length, uint32_t verdict)
{
    if ((table_count & (table_count + 1)) == 0)
        tables = realloc(tables, (2 * table_count + 2) * sizeof *tables);
    if (!tables)
        exit(2);
    tables[table_count++] = (struct table){bytes, length, verdict};
}

/* The vectors: records of a word L, L bytes of table, one byte of verdict. */
void load_tables(const char *vectors)
{
    static uint8_t bytes[JOYCE_ACCEPTED_MAX];
    struct board_variables variables;
    size_t length, size;
    const uint8_t *all = read_file(vectors, &length);
    for (size_t at = 0; at + 2 < length; at += 3 + size) {
        size = all[at] + 256u * all[at + 1];
        add_table(all + at + 2, size, all[at + 2 + size]);
    }
    board = (struct table){bytes, build_board(bytes, sizeof bytes, &variables), JOYCE_ACCEPTED};
    add_table(board.bytes, board.length, JOYCE_ACCEPTED);
}

struct table table_of(uint32_t verdict, size_t i)
{
    static size_t counts[JOYCE_TYPES + 1];
    if (counts[verdict] == 0)
        for (size_t k = 0; k < table_count; k++)
            counts[verdict] += tables[k].verdict == verdict;
    i = counts[verdict] ? i % counts[verdict] : 0;
    for (size_t k = 0; k < table_count; k++)
        if (tables[k].verdict == verdict && i-- == 0)
            return tables[k];
    fprintf(stderr, "no vector has the verdict %u\n", (unsigned)verdict);
    exit(2);
}

/* ---- pseudo-random numbers */

uint64_t seed;

uint32_t below(uint32_t limit)
{
    seed ^= seed >> 12;
    seed ^= seed << 25;
    seed ^= seed >> 27;
    return (uint32_t)((seed * 0x2545F4914F6CDD1Du) >> 33) % limit;
}

/* ---- rooms */

enum { ROOM = 65536, FILL = 0xa5 };

struct room {
    uint8_t *bytes, *before; /* before: as the room was at the call */
    size_t first, length;    /* the slice */
};

static struct room rooms[SLICES];

void open_rooms(void)
{
    size_t page = (size_t)sysconf(_SC_PAGESIZE);
    for (int i = 0; i < SLICES; i++) {
        uint8_t *all = mmap(NULL, ROOM + 2 * page, PROT_NONE, MAP_PRIVATE | MAP_ANONYMOUS, -1, 0);
        if (all == MAP_FAILED || mprotect(all + page, ROOM, PROT_READ | PROT_WRITE) != 0) {
            fprintf(stderr, "cannot map memory\n");
            exit(2);
        }
        rooms[i].bytes = all + page;
        rooms[i].before = malloc(ROOM);
        if (!rooms[i].before)
            exit(2);
    }
}

static bool is_written_by(enum call which, enum slice slice)
{
    return (slice == STATE && (which == BEGIN || which == RUN)) || ((slice == PAGE || slice == ANSWERS) && which == RUN);
}

static void fill_room(struct room *room, const uint8_t *bytes, size_t length, bool at_end)
{
    if (length > ROOM) {
        fprintf(stderr, "no room for %zu bytes\n", length);
        exit(2);
    }
    mprotect(room->bytes, ROOM, PROT_READ | PROT_WRITE);
    room->first = at_end ? ROOM - length : 0;
    room->length = length;
    memset(room->bytes, FILL, ROOM);
    if (bytes && length)
        memcpy(room->bytes + room->first, bytes, length);
    memcpy(room->before, room->bytes, ROOM);
}

uint32_t call(enum call which, const struct lent *lent, bool at_end)
{
    uint8_t *at[SLICES];
    const size_t *n = lent->lengths;
    for (int i = 0; i < SLICES; i++) {
        fill_room(&rooms[i], lent->bytes[i], n[i], at_end);
        at[i] = rooms[i].bytes + rooms[i].first;
        if (!is_written_by(which, (enum slice)i))
            mprotect(rooms[i].bytes, ROOM, PROT_READ);
    }
    switch (which) {
    case CHECK: return joyce_check(at[TABLE], n[TABLE]);
    case BEGIN: return joyce_begin(at[TABLE], n[TABLE], at[STATE], n[STATE], lent->number);
    case RUN:
        return joyce_run(at[TABLE], n[TABLE], at[STATE], n[STATE], at[PAGE], n[PAGE], at[SCHEDULE], n[SCHEDULE], at[ANSWERS], n[ANSWERS]);
    default: return joyce_look(at[TABLE], n[TABLE], at[STATE], n[STATE], lent->process, lent->variable, lent->place);
    }
}

const uint8_t *left(enum slice slice)
{
    return rooms[slice].bytes + rooms[slice].first;
}

bool is_room_kept(enum slice slice)
{
    return memcmp(rooms[slice].bytes, rooms[slice].before, ROOM) == 0;
}

bool is_outside_kept(enum slice slice)
{
    const struct room *room = &rooms[slice];
    size_t end = room->first + room->length;
    return memcmp(room->bytes, room->before, room->first) == 0 && memcmp(room->bytes + end, room->before + end, ROOM - end) == 0;
}

bool is_refused(enum call which, const struct lent *lent, uint32_t refusal)
{
    static const char *const calls[] = {"check", "begin", "run", "look"};
    static const char *const slices[] = {"table", "state", "page", "schedule", "answers"};
    for (int at_end = 0; at_end < 2; at_end++) {
        uint32_t result = call(which, lent, at_end);
        if (result != refusal)
            return bad("%s returned %u, not %u", calls[which], (unsigned)result, (unsigned)refusal);
        for (int i = 0; i < SLICES; i++)
            if (!is_room_kept((enum slice)i))
                return bad("%s refused with %u and changed the %s", calls[which], (unsigned)refusal, slices[i]);
    }
    return true;
}

/* ---- short forms */

bool begin(struct run_state *r, struct table table)
{
    return begin_with(r, table, JOYCE_START_ZEROS);
}

bool begin_with(struct run_state *r, struct table table, uint32_t number)
{
    r->table = table;
    memset(r->page, 0, sizeof r->page);
    memset(r->state, FILL, sizeof r->state);
    uint32_t result = joyce_begin(table.bytes, table.length, r->state, sizeof r->state, number);
    return result == JOYCE_OK || bad("begin returned %u", (unsigned)result);
}

bool run_turns(struct run_state *r, const uint8_t *schedule, size_t length, uint8_t *answers)
{
    uint32_t result = joyce_run(r->table.bytes, r->table.length, r->state, sizeof r->state, r->page, sizeof r->page, schedule, length,
                                answers, length);
    return result == JOYCE_OK || bad("run returned %u", (unsigned)result);
}

struct lent lend(struct run_state *r, const uint8_t *schedule, size_t length, const uint8_t *answers)
{
    return (struct lent){
        .bytes = {r->table.bytes, r->state, r->page, schedule, answers},
        .lengths = {r->table.length, sizeof r->state, sizeof r->page, length, length},
        .process = 1,
        .number = JOYCE_START_ZEROS,
    };
}

bool is_answer(unsigned answer)
{
    return answer <= JOYCE_NO_PROCESS || (answer >= JOYCE_FAILURE && answer <= JOYCE_PROCESSES) || answer == JOYCE_UNSET;
}

bool advance(struct run_state *r, unsigned turns)
{
    uint8_t schedule[256], answers[256];
    while (turns > 0) {
        unsigned count = turns < 256 ? turns : 256;
        for (unsigned i = 0; i < count; i++)
            schedule[i] = (uint8_t)(1 + below(below(4) ? 4 : 10));
        if (!run_turns(r, schedule, count, answers))
            return false;
        turns -= count;
    }
    return true;
}
