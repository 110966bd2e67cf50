/* States that are stale or damaged, words that are looked at, and several threads. */
#define _DEFAULT_SOURCE
#include "board.h"
#include "reader.h"
#include "support.h"
#include "tests.h"

#include <pthread.h>
#include <stdlib.h>
#include <string.h>

enum { TURNS_TRIED = 40 };

static size_t refused, stepped;

/* A run from whatever state: refused with 10 and nothing changed, or every answer is one, and the state that it leaves is one of this program, with
 * references of their modules. */
static bool steps_safely(const struct lent *lent)
{
    static uint8_t state[JOYCE_STATE_SIZE], page[JOYCE_PAGE_SIZE];
    struct program program;
    unsigned named = 0;
    uint32_t result = call(RUN, lent, below(2));
    if (result == JOYCE_STATE) {
        refused++;
        for (int i = 0; i < SLICES; i++)
            if (!is_room_kept((enum slice)i))
                return bad("refused with 10, and slice %d changed", i);
        return true;
    }
    if (result != JOYCE_OK)
        return bad("run returned %u", (unsigned)result);
    stepped++;
    for (size_t i = 0; i < lent->lengths[SCHEDULE]; i++)
        if (!is_answer(left(ANSWERS)[i]))
            return bad("an answer is %u", left(ANSWERS)[i]);
    memcpy(state, left(STATE), sizeof state);
    memcpy(page, left(PAGE), sizeof page);
    if (joyce_run(lent->bytes[TABLE], lent->lengths[TABLE], state, sizeof state, page, sizeof page, NULL, 0, NULL, 0) != JOYCE_OK)
        return bad("the state after a run is refused");
    read_program(&program, lent->bytes[TABLE], lent->lengths[TABLE]);
    return references_hold(&program, state, &named) || bad("a reference is not of its module");
}

static void odd_turns(uint8_t *turns)
{
    for (int i = 0; i < TURNS_TRIED; i++)
        turns[i] = (uint8_t)(below(20) ? 1 + below(6) : below(256));
}

/* The state of one program handed to another. */
static bool anothers_state(void)
{
    static struct run_state r;
    uint8_t turns[TURNS_TRIED], answers[TURNS_TRIED];
    seed = 79;
    refused = stepped = 0;
    for (int round = 0; round < 4000 / SHARE; round++) {
        struct table other = table_of(JOYCE_ACCEPTED, below(100000));
        if (!begin_with(&r, table_of(JOYCE_ACCEPTED, below(100000)), below(2)) || !advance(&r, below(60)))
            return false;
        odd_turns(turns);
        memset(answers, 0x5a, sizeof answers);
        struct lent lent = lend(&r, turns, sizeof turns, answers);
        lent.bytes[TABLE] = other.bytes;
        lent.lengths[TABLE] = other.length;
        if (!steps_safely(&lent))
            return false;
    }
    return (refused > 0 && stepped > 0) || bad("%zu were refused and %zu stepped", refused, stepped);
}

/* A word of the state that means something: of a record, or near the beginning of an area. */
static size_t telling_byte(void)
{
    uint32_t process = below(below(3) ? 5 : 64);
    switch (below(5)) {
    case 0: return 35328 + 32 * process + below(below(2) ? 4 : 32); /* marks */
    case 1:
    case 2: return 32768 + 40 * process + below(22);
    default: return 512 * process + below(below(2) ? 24 : 512);
    }
}

static bool flipped_bytes(void)
{
    static struct run_state r;
    uint8_t turns[TURNS_TRIED], answers[TURNS_TRIED];
    seed = 1980;
    refused = stepped = 0;
    for (int round = 0; round < 6000 / SHARE; round++) {
        if (!begin_with(&r, round % 3 ? table_of(JOYCE_ACCEPTED, below(100000)) : board, below(2)) || !advance(&r, below(200)))
            return false;
        for (uint32_t flips = 1 + below(3); flips > 0; flips--)
            r.state[telling_byte()] ^= (uint8_t)(1u << below(8));
        odd_turns(turns);
        memset(answers, 0x5a, sizeof answers);
        struct lent lent = lend(&r, turns, sizeof turns, answers);
        if (!steps_safely(&lent))
            return false;
    }
    return (refused > 0 && stepped > 0) || bad("%zu were refused and %zu stepped", refused, stepped);
}

/* Every word that can be looked at is where docs/STATE.md says, and no other can be. */
static bool looks_by_layout(void)
{
    static struct run_state r;
    struct program program;
    unsigned seen[3] = {0};
    seed = 11;
    for (int round = 0; round < 300 / SHARE; round++) {
        if (!begin_with(&r, round % 10 ? table_of(JOYCE_ACCEPTED, below(100000)) : board, below(2)) || !advance(&r, below(300)))
            return false;
        read_program(&program, r.table.bytes, r.table.length);
        for (int i = 0; i < 100; i++) {
            uint32_t process = below(6), variable = below(12), place = below(below(2) ? 2 : 12);
            uint32_t result = joyce_look(r.table.bytes, r.table.length, r.state, sizeof r.state, process, variable, place);
            uint32_t expected = look_by_layout(&program, r.state, process, variable, place);
            if (result != expected)
                return bad("process %u, variable %u, place %u: %u, by the layout %u", process, variable, place, (unsigned)result, (unsigned)expected);
            seen[result == JOYCE_ABSENT ? 0 : result == JOYCE_UNSET_WORD ? 1 : 2]++;
        }
    }
    return (seen[0] && seen[1] && seen[2]) || bad("%u are absent, %u unset and %u words", seen[0], seen[1], seen[2]);
}

/* A state may be kept and put back: what follows is the same again. */
static bool kept_states(void)
{
    static struct run_state r, again;
    uint8_t turns[200], first[200], second[200];
    seed = 3;
    for (int round = 0; round < 300 / SHARE; round++) {
        if (!begin_with(&r, table_of(JOYCE_ACCEPTED, below(100000)), below(2)) || !advance(&r, below(100)))
            return false;
        again = r;
        for (size_t i = 0; i < sizeof turns; i++)
            turns[i] = (uint8_t)(1 + below(5));
        if (!run_turns(&r, turns, sizeof turns, first) || !run_turns(&again, turns, sizeof turns, second))
            return false;
        if (memcmp(first, second, sizeof first) || memcmp(&r, &again, sizeof r))
            return bad("the same run from a copy of the state differs");
    }
    return true;
}

/* ---- threads: one table, and a state, a page and answers of each thread's own */

enum { THREADS = 4, FRAMES = 40 };

struct player {
    uint8_t state[JOYCE_STATE_SIZE], page[JOYCE_PAGE_SIZE], answers[FRAMES * FRAME_STEPS + BOOT_STEPS];
    bool is_done;
};

static uint8_t frames[FRAMES * FRAME_STEPS + BOOT_STEPS]; /* and before them the boot */

static void *play(void *argument)
{
    struct player *p = argument;
    for (int i = 0; i < FRAMES; i++)
        joyce_put(p->page, PAD_STRIP + 2 * i, i % 3);
    if (joyce_begin(board.bytes, board.length, p->state, sizeof p->state, JOYCE_START_UNSET) != JOYCE_OK)
        return NULL;
    for (size_t at = 0, count; at < sizeof frames; at += count) {
        count = at == 0 ? BOOT_STEPS + FRAME_STEPS : FRAME_STEPS;
        if (joyce_run(board.bytes, board.length, p->state, sizeof p->state, p->page, sizeof p->page, frames + at, count, p->answers + at,
                      count) != JOYCE_OK)
            return NULL;
        if (joyce_look(board.bytes, board.length, p->state, sizeof p->state, CLOCK, 3, 0) < JOYCE_WORD)
            return NULL;
    }
    p->is_done = true;
    return NULL;
}

/* Four threads at once, each with a stack of 256 KiB, see what one sees. */
static bool threads(void)
{
    struct player *players = calloc(THREADS + 1, sizeof *players);
    pthread_t thread[THREADS];
    pthread_attr_t small;
    bool is_same = true;
    boot_turns(frames);
    frame_turns(frames + BOOT_STEPS, FRAMES);
    if (!players || pthread_attr_init(&small) || pthread_attr_setstacksize(&small, 256 * 1024))
        return bad("no threads");
    for (int i = 0; i < THREADS; i++)
        if (pthread_create(&thread[i], &small, play, &players[i]))
            return bad("pthread_create");
    play(&players[THREADS]);
    for (int i = 0; i < THREADS; i++) {
        pthread_join(thread[i], NULL);
        is_same = is_same && players[i].is_done && memcmp(&players[i], &players[THREADS], sizeof *players) == 0;
    }
    pthread_attr_destroy(&small);
    free(players);
    return is_same || bad("the runs of the threads differ");
}

/* Long calls, which use rows of a plan again, leave on a small stack what single steps leave, each of which makes its rows anew. */
enum { LONG = 384, TABLES = 300 / SHARE };

struct long_run {
    struct run_state whole, cut;
    uint8_t turns[LONG], first[LONG], second[LONG];
    bool is_done;
};

static bool run_long(struct long_run *p, struct table t, uint32_t number)
{
    if (!begin_with(&p->whole, t, number) || !begin_with(&p->cut, t, number) || !run_turns(&p->whole, p->turns, LONG, p->first))
        return false;
    for (int i = 0; i < LONG; i++)
        if (!run_turns(&p->cut, p->turns + i, 1, p->second + i))
            return false;
    return (memcmp(p->first, p->second, LONG) == 0 && memcmp(p->whole.state, p->cut.state, sizeof p->cut.state) == 0 &&
            memcmp(p->whole.page, p->cut.page, sizeof p->cut.page) == 0) || bad("a long call and single steps differ");
}

static void *play_long(void *argument)
{
    struct long_run *p = argument;
    for (size_t i = 0; i < LONG; i++)
        p->turns[i] = (uint8_t)(1 + i % 5);
    for (uint32_t i = 0; i < TABLES; i++)
        if (!run_long(p, table_of(JOYCE_ACCEPTED, i * 7), i % 2))
            return NULL;
    p->is_done = true;
    return NULL;
}

static bool long_calls(void)
{
    struct long_run *p = calloc(1, sizeof *p);
    pthread_t thread;
    pthread_attr_t small;
    if (!p || pthread_attr_init(&small) || pthread_attr_setstacksize(&small, 256 * 1024) || pthread_create(&thread, &small, play_long, p))
        return bad("no thread");
    pthread_join(thread, NULL);
    bool is_done = p->is_done;
    pthread_attr_destroy(&small);
    free(p);
    return is_done;
}

void state_tests(void)
{
    run_test("stale_state_of_another_program", anothers_state);
    run_test("stale_state_flipped_bytes", flipped_bytes);
    run_test("looks_by_layout", looks_by_layout);
    run_test("kept_states", kept_states);
    run_test("threads", threads);
    run_test("long_calls", long_calls);
}
