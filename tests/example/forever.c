/* The example board is right for ever: it is played for many frames with a pad that is held at random, and after each frame the whole device page
 * is what a few lines of C say. */
#include "board.h"
#include "joyce.h"

#include <stdio.h>
#include <stdlib.h>
#include <string.h>

static uint8_t table[JOYCE_ACCEPTED_MAX], state[JOYCE_STATE_SIZE], page[JOYCE_PAGE_SIZE], wanted[JOYCE_PAGE_SIZE];
static uint8_t schedule[FRAME_STEPS], answers[FRAME_STEPS];

/* ---- the pad: some direction for 1 to 90 frames, then another */

static int next_buttons(void)
{
    static uint32_t seed = 1;
    static int buttons, left;
    if (left-- == 0) {
        seed = seed * 1664525u + 1013904223u;
        buttons = (int)(seed >> 16) % 3;
        left = (int)(seed >> 20) % 90;
    }
    return buttons;
}

/* ---- the board once more */

struct model {
    int column, part, rest, tone;
};

static void play_model(struct model *m, long frame, int buttons)
{
    int speed = buttons == PAD_LEFT ? -SPEED : buttons == PAD_RIGHT ? SPEED : 0, path = m->part + speed;
    joyce_put(wanted, strip_address(PAD_STRIP, frame), buttons);
    joyce_put(wanted, FRAME, (int)(frame % STRIP_FRAMES));
    if (frame > 0) { /* the sound unit sees frame 0 for the first time when the strip begins anew */
        joyce_put(wanted, strip_address(SOUND_STRIP, frame), m->rest > 0 ? m->tone : 0);
        m->rest -= m->rest > 0;
    }
    m->column += path / 256;
    m->part = path % 256;
    if (m->column < 0 || m->column >= COLUMNS) {
        m->column = m->column < 0 ? 0 : COLUMNS - 1;
        m->part = 0;
    }
    if (m->column == 0 && speed < 0) {
        m->tone = EDGE_TONE;
        m->rest = TONE_FRAMES;
    }
    joyce_put(wanted, strip_address(FILM_STRIP, frame), m->column);
}

static int compare_pages(long frame)
{
    for (int address = JOYCE_ADDRESS_MIN; address <= JOYCE_ADDRESS_MAX; address += 2)
        if (joyce_get(page, address) != joyce_get(wanted, address)) {
            printf("frame %ld: the device word %d is %d, not %d\n", frame, address, joyce_get(page, address), joyce_get(wanted, address));
            return 1;
        }
    return 0;
}

int main(int argc, char **argv)
{
    struct board_variables variables;
    struct model model = {.column = START_COLUMN};
    size_t length = build_board(table, sizeof table, &variables);
    long frames = argc > 1 ? atol(argv[1]) : 100000;
    boot_turns(schedule);
    if (joyce_begin(table, length, state, sizeof state, JOYCE_START_UNSET) != JOYCE_OK ||
        joyce_run(table, length, state, sizeof state, page, sizeof page, schedule, BOOT_STEPS, answers, FRAME_STEPS) != JOYCE_OK)
        return 1;
    for (size_t i = 0; i < strlen(BOARD_TITLE); i++)
        joyce_put(wanted, TITLE + 2 * (int)i, BOARD_TITLE[i]);
    if (compare_pages(-1))
        return 1;
    frame_turns(schedule, 1);
    for (long frame = 0; frame < frames; frame++) {
        int buttons = next_buttons();
        joyce_put(page, strip_address(PAD_STRIP, frame), buttons);
        play_model(&model, frame, buttons);
        if (joyce_run(table, length, state, sizeof state, page, sizeof page, schedule, FRAME_STEPS, answers, FRAME_STEPS) != JOYCE_OK)
            return 1;
        if (answers[FRAME_STEPS - 1] >= JOYCE_FAILURE) {
            printf("frame %ld: failed with %u\n", frame, answers[FRAME_STEPS - 1]);
            return 1;
        }
        if (memcmp(page, wanted, sizeof page) != 0)
            return compare_pages(frame);
    }
    printf("%ld frames\n", frames);
    return 0;
}
