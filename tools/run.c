/* The command run: steps, what they came to, traces, breakpoints, pictures. */
#define _POSIX_C_SOURCE 200809L
#include "check.h"
#include "joyce.h"
#include "names.h"
#include "picture.h"
#include "room.h"
#include "unset.h"
#include "view.h"

#include <errno.h>
#include <stdio.h>
#include <stdlib.h>
#include <string.h>
#include <time.h>
#include <unistd.h>

enum { PIECE = 65536, PROCESSES = 256, SORTS = 5 };

/* ---- options */

struct options {
    const char *table, *schedule, *state, *page, *picture, *save_state, *save_page, *names, *breakpoint;
    uint64_t times, skip, from, to;
    bool is_listed, is_traced, goes_on, begins_with_zeros;
    unsigned break_process, break_statement;
};

/* PROCESS:STATEMENT */
static void read_breakpoint(struct options *o)
{
    char process[8];
    const char *colon = o->breakpoint ? strchr(o->breakpoint, ':') : NULL;
    if (!o->breakpoint)
        return;
    if (!colon || (size_t)(colon - o->breakpoint) >= sizeof process)
        stop("run: --break is PROCESS:STATEMENT, not %s", o->breakpoint);
    memcpy(process, o->breakpoint, (size_t)(colon - o->breakpoint));
    process[colon - o->breakpoint] = 0;
    o->break_process = (unsigned)read_number(process, "a process", JOYCE_PROCESSES_MAX);
    o->break_statement = (unsigned)read_number(colon + 1, "a statement", 254);
    if (o->break_process < 1)
        stop("run: --break: processes are numbered from 1 on");
}

static struct options read_options(int count, char **words)
{
    struct options o = {.times = 1, .from = 1, .to = UINT64_MAX};
    const struct option options[] = {
        {.name = "--state", .text = &o.state}, {.name = "--page", .text = &o.page}, {.name = "--picture", .text = &o.picture},
        {.name = "--save-state", .text = &o.save_state}, {.name = "--save-page", .text = &o.save_page}, {.name = "--names", .text = &o.names},
        {.name = "--break", .text = &o.breakpoint}, {.name = "--times", .number = &o.times, .limit = UINT32_MAX},
        {.name = "--skip", .number = &o.skip, .limit = INT64_MAX}, {.name = "--from", .number = &o.from, .limit = INT64_MAX},
        {.name = "--to", .number = &o.to, .limit = INT64_MAX}, {.name = "--list", .flag = &o.is_listed}, {.name = "--trace", .flag = &o.is_traced},
        {.name = "--go-on", .flag = &o.goes_on}, {.name = "--zeros", .flag = &o.begins_with_zeros}};
    if (take_options("run", count, words, options, sizeof options / sizeof *options) != 2)
        stop("run: a table and a schedule are needed; see joyce run --help");
    o.table = words[0];
    o.schedule = words[1];
    read_breakpoint(&o);
    if (o.state && o.begins_with_zeros)
        stop("run: --zeros is for a run from the program's beginning; the state has it from there");
    if (o.from < 1 || o.from > o.to)
        stop("run: steps are numbered from 1 on, and --from is not above --to");
    return o;
}

/* ---- the run */

struct run {
    struct options o;
    struct program p;
    struct bytes schedule;
    uint8_t state[JOYCE_STATE_SIZE], page[JOYCE_PAGE_SIZE], first_page[JOYCE_PAGE_SIZE];
    uint64_t steps, done;            /* counted from the beginning of the schedule, with what is skipped */
    uint64_t turns[PROCESSES][SORTS]; /* of each process: advanced, waited, had ended, no such process, failed */
    unsigned failed_before;          /* the number by which the run had failed before, or 0 */
    uint64_t failed_at;
    unsigned failed_process, failure;
    char *why;                       /* where it failed with 22 or 31: which limit, what has no value; null where the tool does not find it */
    bool is_broken_off;              /* at the breakpoint */
    struct picture *picture;
    struct view view;
};

static uint32_t make_steps(struct run *r, const uint8_t *turns, uint8_t *answers, size_t count)
{
    return joyce_run(r->p.bytes.at, r->p.bytes.length, r->state, sizeof r->state, r->page, sizeof r->page, turns, count, answers, count);
}

/* The state that the run begins with; REFUSED with a line that says why where there is none. */
static int prepare_state(struct run *r)
{
    static uint8_t none[1];
    uint32_t number = r->o.begins_with_zeros ? JOYCE_START_ZEROS : JOYCE_START_UNSET;
    if (!r->o.state)
        return joyce_begin(r->p.bytes.at, r->p.bytes.length, r->state, sizeof r->state, number) == JOYCE_OK ? DONE : REFUSED;
    read_exactly(r->o.state, r->state, sizeof r->state, "a state");
    uint32_t result = make_steps(r, none, none, 0);
    if (result != JOYCE_OK) {
        printf("%s: refused with %u: %s\n", r->o.state, (unsigned)result, result_words(result));
        return REFUSED;
    }
    r->failed_before = failure_of(r->state);
    if (r->failed_before)
        printf("%s: the run had failed before, by %u: %s\n", r->o.state, r->failed_before, answer_words(r->failed_before));
    return DONE;
}

static void prepare_outputs(struct run *r)
{
    const char *const files[] = {r->o.save_state, r->o.save_page, r->o.picture};
    for (int i = 0; i < 3; i++)
        for (int k = 0; k < i; k++)
            if (files[i] && files[k] && strcmp(files[i], files[k]) == 0)
                stop("run: two files are to be written to %s", files[i]);
    for (int i = 0; i < 3; i++)
        if (files[i])
            test_writable(files[i]);
    if (r->o.picture && !(r->picture = picture_new(r->o.from > r->o.skip ? r->o.from - 1 : r->o.skip)))
        stop("no memory for the picture");
}

static int prepare(struct run *r)
{
    int status = open_program(r->o.table, r->o.names, true, &r->p);
    if (status != DONE)
        return status;
    r->schedule = read_file(r->o.schedule, NO_LIMIT);
    r->steps = r->schedule.length * r->o.times;
    if (r->o.times && r->steps / r->o.times != r->schedule.length)
        stop("run: too many steps");
    r->done = r->o.skip < r->steps ? r->o.skip : r->steps;
    if (r->o.page)
        read_exactly(r->o.page, r->page, sizeof r->page, "a device page");
    memcpy(r->first_page, r->page, sizeof r->page);
    status = prepare_state(r);
    if (status != DONE)
        return status;
    view_prepare(&r->view, &(struct text){&r->p.sections, r->p.labels, stdout, 0}, r->state);
    prepare_outputs(r);
    return DONE;
}

/* Long work shows how far it is, on a terminal, four times a second. */
static void show_progress(const struct run *r)
{
    static struct timespec last;
    struct timespec now;
    if (!isatty(STDERR_FILENO) || clock_gettime(CLOCK_MONOTONIC, &now) != 0)
        return;
    bool is_first = last.tv_sec == 0 && last.tv_nsec == 0, is_over = r->done == r->steps || r->failed_at;
    if (is_first || (now.tv_sec - last.tv_sec) * 1000 + (now.tv_nsec - last.tv_nsec) / 1000000 >= 250 || is_over) {
        last = now;
        if (is_over)
            fprintf(stderr, "\r%70s\r", "");
        else
            fprintf(stderr, "\r%3.0f%% of %llu steps", 100.0 * (double)r->done / (double)r->steps, (unsigned long long)r->steps);
    }
}

static bool is_in_range(const struct run *r, uint64_t step)
{
    return step >= r->o.from && step <= r->o.to;
}

/* ---- one step */

/* What the process is about to do: 'step 12: process 3, sprite: move at statement 33: column := 10' */
static void trace_before(struct run *r, unsigned process)
{
    printf("step %llu: process %u", (unsigned long long)r->done + 1, process);
    if (process < 1 || process > created_of(r->state))
        return;
    struct record record = record_of(r->state, process);
    fputs(", ", stdout);
    write_block_name(&r->view.text, (int)record.module);
    if (record.status != STARTED) {
        fputs(record.status == ENDED ? ": ended" : ": not started", stdout);
        return;
    }
    fputs(": ", stdout);
    write_block_name(&r->view.text, (int)block_of(r->state, process));
    printf(" at statement %u: ", record.statement);
    write_statement(&r->view.text, (int)record.statement);
}

/* Of which failures the tool says more than the library does. */
static bool is_explained(unsigned answer)
{
    return answer == JOYCE_AREA || answer == JOYCE_UNSET;
}

/* Which limit was passed, or what was retrieved unset. A step that fails changes nothing, so that the state is still the one before it. */
static char *why_words(struct run *r, unsigned process, unsigned answer)
{
    char *words = NULL;
    size_t length;
    FILE *out = open_memstream(&words, &length);
    if (!out)
        stop("no memory");
    r->view.text.out = out;
    bool is_found = answer == JOYCE_AREA ? write_room(&r->view, process) : write_unset(&r->view, r->page, process);
    r->view.text.out = stdout;
    fclose(out);
    if (is_found)
        return words;
    free(words);
    return NULL;
}

static void note_failure(struct run *r, unsigned process, unsigned answer)
{
    r->failed_at = r->done;
    r->failed_process = process;
    r->failure = answer;
    r->why = is_explained(answer) ? why_words(r, process, answer) : NULL;
    if (r->picture && is_in_range(r, r->done))
        picture_failure(r->picture, process, answer, r->why);
}

static void note_step(struct run *r, unsigned process, unsigned answer)
{
    uint64_t step = ++r->done;
    r->turns[process][answer < JOYCE_FAILURE ? answer : SORTS - 1]++;
    if (r->picture && is_in_range(r, step))
        picture_step(r->picture, process, answer);
    if (answer >= JOYCE_FAILURE && !r->failed_at && !r->failed_before)
        note_failure(r, process, answer);
    if (r->o.is_traced && is_in_range(r, step))
        printf(" -> %u, %s\n", answer, answer_words(answer));
    else if (r->o.is_listed && is_in_range(r, step))
        printf("step %llu: process %u: %u, %s\n", (unsigned long long)step, process, answer, answer_words(answer));
}

/* Does the process stand at the breakpoint? Not before the first step, so that a run can go on from there. */
static bool is_at_breakpoint(const struct run *r, unsigned process)
{
    if (!r->o.breakpoint || process != r->o.break_process || process > created_of(r->state) || r->done == r->o.skip)
        return false;
    struct record record = record_of(r->state, process);
    return record.status == STARTED && record.statement == r->o.break_statement;
}

/* How many steps the next call makes: one where each is looked at. */
static size_t piece_of(const struct run *r)
{
    uint64_t left = r->steps - r->done, before = r->o.from - 1;
    if (r->o.breakpoint || (r->o.is_traced && is_in_range(r, r->done + 1)))
        return 1;
    if (r->o.is_traced && r->done < before && before - r->done < left)
        left = before - r->done;
    return left < PIECE ? (size_t)left : PIECE;
}

static void run_all(struct run *r)
{
    static uint8_t turns[PIECE], answers[PIECE];
    while (r->done < r->steps && (r->o.goes_on || (!r->failed_at && !r->failed_before))) {
        size_t count = piece_of(r);
        for (size_t i = 0; i < count; i++)
            turns[i] = r->schedule.at[(r->done + i) % r->schedule.length];
        r->is_broken_off = is_at_breakpoint(r, turns[0]);
        if (r->is_broken_off)
            return;
        if (r->o.is_traced && is_in_range(r, r->done + 1))
            trace_before(r, turns[0]);
        uint32_t result = make_steps(r, turns, answers, count);
        if (result != JOYCE_OK) /* the table and the state were accepted before: this cannot be */
            stop("joyce_run returned %u: %s", (unsigned)result, result_words(result));
        for (size_t i = 0; i < count && (r->o.goes_on || !r->failed_at); i++) /* steps after a failure change nothing */
            note_step(r, turns[i], answers[i]);
        if (r->steps > PIECE)
            show_progress(r);
    }
}

/* ---- what it came to */

static unsigned word(const uint8_t *bytes, size_t i)
{
    return bytes[2 * i] + 256u * bytes[2 * i + 1];
}

static void print_place(const struct run *r, unsigned process)
{
    static const char *const status[] = {"not created", "created, not started", "started", "ended"};
    if (process < 1 || process > created_of(r->state)) {
        printf("; not created");
        return;
    }
    struct record record = record_of(r->state, process);
    const char *name = label_of(r->p.labels, BLOCK_LABEL, (int)record.module);
    printf("; module %u", record.module);
    if (name)
        printf(" (%s)", name);
    printf(", %s", status[record.status]);
    if (record.status == STARTED)
        printf(", at statement %u, in %u calls", record.statement, record.depth);
}

static void print_processes(const struct run *r)
{
    static const char *const sorts[SORTS] = {"advanced", "waited", "had ended", "no such process", "failed"};
    for (unsigned process = 0; process < PROCESSES; process++) {
        uint64_t turns = 0;
        for (int sort = 0; sort < SORTS; sort++)
            turns += r->turns[process][sort];
        if (turns == 0)
            continue;
        printf("process %u: %llu turns", process, (unsigned long long)turns);
        for (int sort = 0; sort < SORTS; sort++)
            if (r->turns[process][sort])
                printf(", %llu %s", (unsigned long long)r->turns[process][sort], sorts[sort]);
        print_place(r, process);
        putchar('\n');
    }
}

static void print_device_words(const struct run *r)
{
    enum { SHOWN = 16 };
    unsigned changed = 0;
    for (size_t i = 0; i < JOYCE_PAGE_SIZE / 2; i++) {
        unsigned now = word(r->page, i), before = word(r->first_page, i);
        int address = (int)(2 * i) + JOYCE_ADDRESS_MIN;
        const char *name = label_of(r->p.labels, DEVICE_LABEL, address);
        if (now == before || changed++ >= SHOWN)
            continue;
        printf("device word %d", address);
        if (name)
            printf(" (%s)", name);
        printf(": %d, before %d\n", joyce_integer(now), joyce_integer(before));
    }
    if (changed > SHOWN)
        printf("and %u more device words changed; --save-page keeps them all\n", changed - SHOWN);
    if (changed == 0)
        printf("no device word changed\n");
}

/* A process that failed has not moved: where it stands is where it failed. */
static void print_ending(struct run *r)
{
    if (r->failed_at) {
        printf("the run failed at step %llu, process %u: %u, %s\n", (unsigned long long)r->failed_at, r->failed_process, r->failure,
               answer_words(r->failure));
        if (r->why)
            printf("  %s\n", r->why);
        print_process(&r->view, r->failed_process);
    }
    if (r->is_broken_off) {
        printf("stopped before step %llu, at the breakpoint; with the state and page kept, --skip %llu goes on\n", (unsigned long long)r->done + 1,
               (unsigned long long)r->done);
        print_process(&r->view, r->o.break_process);
    }
}

static void save_picture(struct run *r)
{
    FILE *file = fopen(r->o.picture, "w");
    if (!file)
        stop("cannot write %s: %s", r->o.picture, strerror(errno));
    for (unsigned process = 1; process <= created_of(r->state); process++)
        picture_name(r->picture, process, label_of(r->p.labels, BLOCK_LABEL, (int)record_of(r->state, process).module));
    picture_write(r->picture, file, r->o.table);
    if (ferror(file) | fclose(file))
        stop("cannot write %s: %s", r->o.picture, strerror(errno));
    printf("picture: %s\n", r->o.picture);
}

static void save(struct run *r)
{
    if (r->o.save_state)
        write_file(r->o.save_state, r->state, sizeof r->state);
    if (r->o.save_page)
        write_file(r->o.save_page, r->page, sizeof r->page);
    if (r->o.picture)
        save_picture(r);
}

int run_command(int count, char **words)
{
    static struct run r;
    r.o = read_options(count, words);
    int status = prepare(&r);
    if (status == DONE) {
        uint64_t first = r.done;
        run_all(&r);
        printf("%llu steps\n", (unsigned long long)(r.done - first));
        print_processes(&r);
        print_device_words(&r);
        print_ending(&r);
        save(&r);
        status = r.failed_at || r.failed_before ? FAILED : DONE;
        if (r.failed_at && is_explained(r.failure) && !r.why) {
            complain("the library says %u, and the tool finds %s: one of them is wrong. Please report it, with the files.", r.failure,
                     r.failure == JOYCE_AREA ? "room there for a call, or no call" : "no word there without a value");
            status = CONTRADICTED;
        }
    }
    free(r.why);
    picture_free(r.picture);
    close_program(&r.p);
    free(r.schedule.at);
    return status;
}
