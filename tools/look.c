/* The command look: processes, calls and variables of a state; or words of one variable. */
#include "check.h"
#include "joyce.h"
#include "names.h"
#include "view.h"

#include <stdio.h>

static uint8_t state[JOYCE_STATE_SIZE];

static uint32_t look_at(const struct program *p, const uint32_t number[3], bool is_said)
{
    uint32_t result = joyce_look(p->bytes.at, p->bytes.length, state, sizeof state, number[0], number[1], number[2]);
    if (result >= JOYCE_WORD) {
        unsigned found = (unsigned)(result - JOYCE_WORD);
        printf("process %u, variable %u, place %u: %d", (unsigned)number[0], (unsigned)number[1], (unsigned)number[2], joyce_integer(found));
        printf(found > JOYCE_INTEGER_MAX ? " (word %u)\n" : "\n", found);
    } else if (is_said)
        printf("refused with %u: %s\n", (unsigned)result, result_words(result));
    else if (result == JOYCE_UNSET_WORD)
        printf("process %u, variable %u, place %u: unset\n", (unsigned)number[0], (unsigned)number[1], (unsigned)number[2]);
    return result;
}

/* All words of a variable, unset ones too. */
static int look_at_words(const struct program *p, uint32_t number[3])
{
    uint32_t result = look_at(p, number, false);
    while (result >= JOYCE_WORD || result == JOYCE_UNSET_WORD) {
        number[2]++;
        result = look_at(p, number, false);
    }
    if (number[2] > 0)
        return DONE;
    look_at(p, number, true); /* says that there is no such word */
    return REFUSED;
}

/* All words of a variable, or the one that is named. */
static int look_at_variable(const struct program *p, uint32_t number[3], bool is_place_named)
{
    if (!is_place_named)
        return look_at_words(p, number);
    return look_at(p, number, true) >= JOYCE_WORD ? DONE : REFUSED;
}

static int look_at_processes(const struct program *p, uint32_t process)
{
    const struct text text = {&p->sections, p->labels, stdout, 0};
    static struct view view;
    view_prepare(&view, &text, state);
    if (process > created_of(state)) {
        printf("refused with %u: %s\n", JOYCE_ABSENT, result_words(JOYCE_ABSENT));
        return REFUSED;
    }
    if (failure_of(state))
        printf("the run has failed, by %u: %s\n", failure_of(state), answer_words(failure_of(state)));
    if (process == 0)
        puts(begins_with_zeros(state) ? "variables begin as zeros" : "variables begin unset");
    for (unsigned i = 1; i <= created_of(state); i++)
        if (process == 0 || process == i)
            print_process(&view, i);
    return DONE;
}

int look_command(int count, char **words)
{
    static const char *const what[3] = {"a process", "a variable", "a place"};
    static uint8_t page[JOYCE_PAGE_SIZE], none[1];
    const char *names = NULL;
    const struct option options[] = {{.name = "--names", .text = &names}};
    uint32_t number[3] = {0, 0, 0};
    struct program p;
    count = take_options("look", count, words, options, 1);
    if (count < 2 || count > 5)
        stop("look: a table and a state are needed; see joyce look --help");
    for (int i = 2; i < count; i++)
        number[i - 2] = (uint32_t)read_number(words[i], what[i - 2], UINT32_MAX);
    int status = open_program(words[0], names, false, &p);
    if (status == DONE) {
        read_exactly(words[1], state, sizeof state, "a state");
        uint32_t result = joyce_run(p.bytes.at, p.bytes.length, state, sizeof state, page, sizeof page, none, 0, none, 0);
        if (result != JOYCE_OK) {
            printf("%s: refused with %u: %s\n", words[1], (unsigned)result, result_words(result));
            status = REFUSED;
        } else if (count >= 4)
            status = look_at_variable(&p, number, count == 5);
        else if (count == 3 && number[0] == 0)
            status = look_at_variable(&p, number, true); /* process 0 is never there: the library says so */
        else
            status = look_at_processes(&p, number[0]);
    }
    close_program(&p);
    return status;
}
