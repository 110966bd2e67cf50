/* States in words, against joyce_look:
 *
 *     views zeros RUNS
 *     views numbered RUNS
 *
 * RUNS are step logs as tests/logs has them; those of the first format are of a time without reserves, and their answers are not compared. After each
 * call every process is printed, and each word of its module's simple variables is that of joyce_look. Every statement that a process stands at is
 * written too. Where a step answers 31 the word that the tool names has no mark, and with all marks but that one the step answers 31 again. Where one
 * answers 22 by the reserve, the call has room with the space that the tool names, and none with two bytes less; where it answers 22 by the area, no
 * space makes room. A line 'ok tool/views_FORMAT' or 'FAIL tool/views_FORMAT: why'. */
#define _POSIX_C_SOURCE 200809L
#include "joyce.h"
#include "room.h"
#include "unset.h"
#include "view.h"

#include <stdlib.h>
#include <string.h>

struct reader {
    const uint8_t *at, *end;
};

static long compared, in_calls, unset_values, unset_steps, by_reserve, by_area;
static const char *format;

static unsigned take_word(struct reader *r)
{
    unsigned word = r->at[0] + 256u * r->at[1];
    r->at += 2;
    return word;
}

static const uint8_t *take(struct reader *r, size_t count)
{
    const uint8_t *at = r->at;
    r->at += count;
    return at;
}

/* The line of a simple variable of the process's module. */
static void expected_line(char line[64], int variable, int type, uint32_t looked)
{
    int number = joyce_integer(looked);
    if (looked == JOYCE_UNSET_WORD)
        snprintf(line, 64, "    v%d = unset\n", variable);
    else if (type == BOOLEAN)
        snprintf(line, 64, "    v%d = %s\n", variable, number ? "true" : "false");
    else if (type == CHARACTER && number >= 32 && number < 127 && number != '\'' && number != '@')
        snprintf(line, 64, "    v%d = '%c'\n", variable, number);
    else
        snprintf(line, 64, type == CHARACTER ? "    v%d = '@%d'\n" : "    v%d = %d\n", variable, number);
}

static bool is_process_right(const struct table *t, const uint8_t *state, unsigned process, const char *text)
{
    char line[64];
    for (int variable = 0; variable < t->count[VARIABLES]; variable++) {
        int type = get(t, VARIABLES, variable, V_TYPE);
        uint32_t word = joyce_look(t->bytes, t->length, state, JOYCE_STATE_SIZE, process, (uint32_t)variable, 0);
        if ((word < JOYCE_WORD && word != JOYCE_UNSET_WORD) || type >= DECLARED || get(t, VARIABLES, variable, V_MODE) == VAR_PARAMETER)
            continue;
        expected_line(line, variable, type, word);
        compared++;
        unset_values += word == JOYCE_UNSET_WORD;
        if (!strstr(text, line)) {
            printf("FAIL tool/views_%s: no line '%s' in:\n%s", format, line, text);
            return false;
        }
    }
    return true;
}

static bool are_processes_right(const struct table *t, const uint8_t *state)
{
    static struct view view;
    for (unsigned process = 1; process <= created_of(state); process++) {
        char *text = NULL;
        size_t length = 0;
        FILE *out = open_memstream(&text, &length);
        if (!out)
            return false;
        view_prepare(&view, &(struct text){t, NULL, out, 0}, state);
        print_process(&view, process);
        fclose(out);
        in_calls += strstr(text, ", in ") != NULL;
        bool is_right = is_process_right(t, state, process, text);
        free(text);
        if (!is_right)
            return false;
    }
    return true;
}

/* ---- steps that answer 31 */

enum { FAILURE_BYTE = 2 * (16384 + 9), MARKS = 35328 };

/* The step again, from a state that has not failed, with all marks but that of one location; or with all, where it is none. */
static unsigned answer_without(const struct table *t, const uint8_t *state, const uint8_t *page, uint8_t process, unsigned location)
{
    static uint8_t again[JOYCE_STATE_SIZE], again_page[JOYCE_PAGE_SIZE];
    uint8_t answer = 0;
    memcpy(again, state, sizeof again);
    memcpy(again_page, page, sizeof again_page);
    memset(again + FAILURE_BYTE, 0, 2);
    memset(again + MARKS, 255, sizeof again - MARKS);
    if (location < 16384)
        again[MARKS + location / 8] ^= (uint8_t)(1 << location % 8);
    uint32_t result = joyce_run(t->bytes, t->length, again, sizeof again, again_page, sizeof again_page, &process, 1, &answer, 1);
    return result == JOYCE_OK ? answer : 255;
}

static bool is_unset_right(const struct table *t, const uint8_t *state, const uint8_t *page, uint8_t process)
{
    static struct view view;
    char *text = NULL, *place;
    size_t length = 0;
    unsigned word, owner, location;
    FILE *out = open_memstream(&text, &length);
    if (!out)
        return false;
    view_prepare(&view, &(struct text){t, NULL, out, 0}, state);
    bool is_found = write_unset(&view, page, process);
    fclose(out);
    place = strrchr(text, '(');
    if (!is_found || !strstr(text, " has no value") || !place || sscanf(place, "(word %u of process %u)", &word, &owner) != 2) {
        printf("FAIL tool/views_%s: a step answers 31, and the tool says '%s'\n", format, text);
        return false;
    }
    location = (owner - 1) * 256 + word;
    unsigned without = answer_without(t, state, page, process, location), with = answer_without(t, state, page, process, 16384);
    bool is_right = without == JOYCE_UNSET && with != JOYCE_UNSET && with != 255 && !(state[MARKS + location / 8] >> location % 8 & 1);
    if (!is_right)
        printf("FAIL tool/views_%s: '%s', but without it the step answers %u, and with it %u\n", format, text, without, with);
    free(text);
    unset_steps++;
    return is_right;
}

/* ---- steps that answer 22 */

/* The step again, from a state that has not failed, where the module of the process has another space. */
static unsigned answer_with_space(const struct table *t, const uint8_t *state, const uint8_t *page, uint8_t process, unsigned space)
{
    static uint8_t again[JOYCE_STATE_SIZE], again_page[JOYCE_PAGE_SIZE], table[JOYCE_TABLE_MAX];
    size_t at = place_of(t, BLOCKS, (int)record_of(state, process).module, B_SPACE);
    uint8_t answer = 0;
    memcpy(again, state, sizeof again);
    memcpy(again_page, page, sizeof again_page);
    memcpy(table, t->bytes, t->length);
    memset(again + FAILURE_BYTE, 0, 2);
    table[at] = (uint8_t)(space % 256);
    table[at + 1] = (uint8_t)(space / 256);
    uint32_t result = joyce_run(table, t->length, again, sizeof again, again_page, sizeof again_page, &process, 1, &answer, 1);
    return result == JOYCE_OK ? answer : 255;
}

static bool is_room_right(const struct table *t, const uint8_t *state, const uint8_t *page, uint8_t process)
{
    static struct view view;
    char *text = NULL;
    size_t length = 0;
    unsigned space = 0;
    FILE *out = open_memstream(&text, &length);
    if (!out)
        return false;
    view_prepare(&view, &(struct text){t, NULL, out, 0}, state);
    bool is_right = write_room(&view, process);
    fclose(out);
    const char *least = strstr(text, "a space of ");
    bool is_area = strstr(text, "the area of 256 words: ") != NULL;
    if (least && !is_area) {
        is_right = is_right && strstr(text, "the reserve of its module, ") && sscanf(least, "a space of %u", &space) == 1 && space >= 2 &&
                   answer_with_space(t, state, page, process, space) == JOYCE_DONE &&
                   answer_with_space(t, state, page, process, space - 2) == JOYCE_AREA;
        by_reserve++;
    } else {
        is_right = is_right && !least && is_area && answer_with_space(t, state, page, process, JOYCE_SPACE_MAX) == JOYCE_AREA;
        by_area++;
    }
    if (!is_right)
        printf("FAIL tool/views_%s: a step answers 22, and the tool says '%s'\n", format, text);
    free(text);
    return is_right;
}

/* Each step by itself, until one answers 22 or 31. */
static bool are_steps_right(const struct table *t, uint8_t *state, uint8_t *page, const uint8_t *schedule, const uint8_t *answers, unsigned count)
{
    bool has_failed = state[FAILURE_BYTE] != 0;
    for (unsigned i = 0; i < count; i++) {
        uint8_t answer = 255;
        if (joyce_run(t->bytes, t->length, state, JOYCE_STATE_SIZE, page, JOYCE_PAGE_SIZE, schedule + i, 1, &answer, 1) != JOYCE_OK ||
            (answers && answer != answers[i])) {
            printf("FAIL tool/views_%s: a step answers %u, not %u\n", format, answer, answers ? answers[i] : 0);
            return false;
        }
        if (answer == JOYCE_UNSET && !has_failed && !is_unset_right(t, state, page, schedule[i]))
            return false;
        if (answer == JOYCE_AREA && !has_failed && !is_room_right(t, state, page, schedule[i]))
            return false;
        has_failed = answer >= JOYCE_FAILURE;
    }
    return true;
}

/* One program and its run. */
static bool replay(struct reader *r, bool is_numbered)
{
    static uint8_t state[JOYCE_STATE_SIZE], page[JOYCE_PAGE_SIZE];
    struct table t;
    int broken;
    bool is_right = true;
    size_t length = take_word(r);
    const uint8_t *table = take(r, length);
    uint32_t number = is_numbered ? *take(r, 1) : JOYCE_START_ZEROS;
    memset(page, 0, sizeof page);
    if (!read_sections(&t, table, length, &broken) || joyce_begin(table, length, state, sizeof state, number) != JOYCE_OK)
        return false;
    for (unsigned calls = take_word(r); calls > 0; calls--) {
        for (unsigned pokes = take_word(r); pokes > 0; pokes--) {
            unsigned place = take_word(r);
            memcpy(page + place, take(r, 2), 2);
        }
        unsigned steps = take_word(r);
        const uint8_t *schedule = take(r, steps), *answers = take(r, steps);
        for (unsigned done = 0; is_right && done < steps; done += 64) { /* some states on the way too */
            unsigned count = steps - done < 64 ? steps - done : 64;
            is_right = are_steps_right(&t, state, page, schedule + done, is_numbered ? answers + done : NULL, count) && are_processes_right(&t, state);
        }
        take(r, 4 * (size_t)take_word(r));
    }
    take(r, (is_numbered ? 16 : 10) * (size_t)take_word(r));
    return is_right;
}

int main(int argc, char **argv)
{
    FILE *file = argc == 3 ? fopen(argv[2], "rb") : NULL;
    static uint8_t bytes[1 << 22];
    long runs = 0;
    if (!file)
        return 2;
    format = argv[1];
    bool is_numbered = strcmp(format, "numbered") == 0;
    struct reader r = {bytes, bytes + fread(bytes, 1, sizeof bytes, file)};
    fclose(file);
    while (r.at < r.end) {
        if (!replay(&r, is_numbered))
            return 1;
        runs++;
    }
    if (!runs || !compared || !in_calls || !by_reserve || (is_numbered && (!unset_values || !unset_steps || !by_area))) {
        printf("FAIL tool/views_%s: %ld runs, %ld values, %ld unset, %ld and %ld + %ld steps\n", format, runs, compared, unset_values, unset_steps,
               by_reserve, by_area);
        return 1;
    }
    printf("ok tool/views_%s: %ld runs, %ld values, %ld unset, %ld processes in calls, %ld steps that answer 31, %ld and %ld that answer 22\n", format,
           runs, compared, unset_values, in_calls, unset_steps, by_reserve, by_area);
    return 0;
}
