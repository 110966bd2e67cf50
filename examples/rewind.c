/* Saving and rewinding. A save is a copy of the state and of the device page; putting both back is going back in time. What is played from there
 * is the same film again where the pad is the same, and another where it is not.
 *
 * It plays the example board with a pad that goes left, saves in the middle, plays on, goes back and plays on twice more. */
#include "board.h"
#include "joyce.h"

#include <stdio.h>
#include <stdlib.h>
#include <string.h>

enum { BEFORE = 10, AFTER = 12 };

/* All that a run is: with the table, these bytes are everything. */
struct console {
    uint8_t state[JOYCE_STATE_SIZE], page[JOYCE_PAGE_SIZE];
};

static uint8_t table[JOYCE_ACCEPTED_MAX], turns[FRAME_STEPS], answers[FRAME_STEPS];
static size_t table_len;

static void stop(const char *what, unsigned number)
{
    fprintf(stderr, "rewind: %s %u\n", what, number);
    exit(1);
}

/* The first of the turns. */
static void make_steps(struct console *c, size_t count)
{
    uint32_t result = joyce_run(table, table_len, c->state, sizeof c->state, c->page, sizeof c->page, turns, count, answers, sizeof answers);
    if (result != JOYCE_OK)
        stop("joyce_run returned", (unsigned)result);
    if (answers[count - 1] >= JOYCE_FAILURE)
        stop("a chip failed with", answers[count - 1]);
}

/* One frame; the sprite's column after it. */
static int play_frame(struct console *c, int frame, int buttons)
{
    joyce_put(c->page, strip_address(PAD_STRIP, frame), buttons);
    make_steps(c, FRAME_STEPS);
    return joyce_get(c->page, strip_address(FILM_STRIP, frame));
}

/* Frames from `first` on, with the pad held; prints the column after each. */
static void play(struct console *c, int first, int count, int buttons, const char *title)
{
    printf("%-22s", title);
    for (int frame = first; frame < first + count; frame++)
        printf(" %2d", play_frame(c, frame, buttons));
    putchar('\n');
}

int main(void)
{
    static struct console now, saved, end;
    struct board_variables variables;
    table_len = build_board(table, sizeof table, &variables);
    uint32_t result = joyce_begin(table, table_len, now.state, sizeof now.state, JOYCE_START_UNSET);
    if (result != JOYCE_OK)
        stop("joyce_begin returned", (unsigned)result);
    boot_turns(turns);
    make_steps(&now, BOOT_STEPS);
    frame_turns(turns, 1);

    play(&now, 0, BEFORE, PAD_RIGHT, "to the right:");
    saved = now;
    play(&now, BEFORE, AFTER, PAD_LEFT, "saved; to the left:");
    end = now;

    now = saved;
    play(&now, BEFORE, AFTER, PAD_LEFT, "back; to the left:");
    puts(memcmp(&now, &end, sizeof now) == 0 ? "every byte is the same" : "some byte is another");

    now = saved;
    play(&now, BEFORE, AFTER, PAD_NONE, "back; nothing is held:");
    return 0;
}
