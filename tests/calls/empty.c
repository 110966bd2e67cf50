/* An empty cartridge slot: zero bytes of table are the listing table, to all four calls, from any pointer. */
#include "support.h"
#include "tests.h"

#include <string.h>

/* block 0 skips and ends */
static const uint8_t listing[] = {0, 0, 0, 1, 0, 0, 0, 0, 0, 0, 0, 0, 0, 0, 2, 0, 0, 0, 0, 0, 0, 13, 0, 0, 0, 0, 0};

/* the listing table, and zero bytes from a null pointer and from a pointer to bytes that are no table */
static const uint8_t other[4] = {255, 255, 255, 255};
static const struct table slots[] = {{listing, sizeof listing, 0}, {NULL, 0, 0}, {other, 0, 0}};
enum { SLOTS = sizeof slots / sizeof *slots };

static bool accepted(void)
{
    for (int i = 0; i < SLOTS; i++) {
        uint32_t verdict = joyce_check(slots[i].bytes, slots[i].length);
        if (verdict != JOYCE_OK)
            return bad("slot %d: check returned %u", i, (unsigned)verdict);
    }
    return true;
}

/* Every proper beginning of the listing table but the empty one has verdict 2, and so has any single byte. */
static bool beginnings_refused(void)
{
    for (size_t n = 1; n < sizeof listing; n++)
        if (joyce_check(listing, n) != JOYCE_SECTIONS)
            return bad("the first %zu bytes", n);
    for (unsigned b = 0; b < 256; b++) {
        uint8_t one = (uint8_t)b;
        if (joyce_check(&one, 1) != JOYCE_SECTIONS)
            return bad("the byte %u", b);
    }
    return true;
}

/* Begun with any of them and run with any of them: one state, one page, the answers of 01's listing. */
static bool one_program(void)
{
    static const uint8_t turns[4] = {1, 1, 1, 2}, want[4] = {0, 2, 2, 3};
    static struct run_state first, now;
    for (int i = 0; i < SLOTS; i++)
        for (int k = 0; k < SLOTS; k++) {
            uint8_t answers[5] = {77, 77, 77, 77, 77};
            memset(&now, 170, sizeof now);
            uint32_t begun = joyce_begin(slots[i].bytes, slots[i].length, now.state, sizeof now.state, JOYCE_START_UNSET);
            uint32_t ran = joyce_run(slots[k].bytes, slots[k].length, now.state, sizeof now.state, now.page, sizeof now.page, turns, 4, answers, 5);
            if (begun != JOYCE_OK || ran != JOYCE_OK)
                return bad("slots %d and %d: begin returned %u, run %u", i, k, (unsigned)begun, (unsigned)ran);
            if (memcmp(answers, want, 4) != 0 || answers[4] != 77)
                return bad("slots %d and %d: answers %u %u %u %u", i, k, answers[0], answers[1], answers[2], answers[3]);
            if (i == 0 && k == 0)
                first = now;
            if (memcmp(first.state, now.state, sizeof now.state) != 0 || memcmp(first.page, now.page, sizeof now.page) != 0)
                return bad("slots %d and %d leave another state or page", i, k);
        }
    return true;
}

/* It has no variable to look at; a wrong state and a wrong length are refused as with any table. */
static bool refusals_stay(void)
{
    static struct run_state r;
    for (int i = 0; i < SLOTS; i++) {
        const uint8_t *t = slots[i].bytes;
        size_t n = slots[i].length;
        uint8_t turn = 1, answer = 0;
        if (joyce_begin(t, n, r.state, sizeof r.state - 1, 0) != JOYCE_LENGTH || joyce_begin(t, n, r.state, sizeof r.state, 2) != JOYCE_LENGTH ||
            joyce_begin(t, n, r.state, sizeof r.state, (uint32_t)i % 2) != JOYCE_OK)
            return bad("slot %d: begin", i);
        if (joyce_look(t, n, r.state, sizeof r.state, 1, 0, 0) != JOYCE_ABSENT)
            return bad("slot %d: look", i);
        memset(r.state, 255, sizeof r.state);
        if (joyce_run(t, n, r.state, sizeof r.state, r.page, sizeof r.page, &turn, 1, &answer, 1) != JOYCE_STATE || r.state[0] != 255)
            return bad("slot %d: a run in a damaged state", i);
    }
    return true;
}

/* No byte is read: the empty slice stands before a page that may not be touched. */
static bool no_byte_read(void)
{
    static struct run_state r;
    static const uint8_t turns[2] = {1, 1};
    uint8_t answers[2];
    r.table = slots[2];
    if (joyce_begin(NULL, 0, r.state, sizeof r.state, JOYCE_START_UNSET) != JOYCE_OK)
        return bad("begin");
    struct lent lent = lend(&r, turns, 2, answers);
    return (call(CHECK, &lent, true) == JOYCE_OK && call(BEGIN, &lent, true) == JOYCE_OK && call(RUN, &lent, true) == JOYCE_OK &&
            call(LOOK, &lent, true) == JOYCE_ABSENT) ||
           bad("a call at a shut page");
}

void empty_tests(void)
{
    run_test("empty_slot_accepted", accepted);
    run_test("empty_slot_beginnings_refused", beginnings_refused);
    run_test("empty_slot_one_program", one_program);
    run_test("empty_slot_refusals", refusals_stay);
    run_test("empty_slot_no_byte_read", no_byte_read);
}
