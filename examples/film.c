/* A small front end: it boots a board of chips and shows its title, plays a recording of the pad to it, and prints what the sprite does as a
 * film, a line a frame.
 *
 *     film                 one call of joyce_run for the boot and one a frame, as a front end does
 *     film --pause         one step a call, as a debugger does
 *     film --no-pause      all frames in one call, as a test does
 *     film --files FOLDER  writes board.tab, board.page and board.sch, to try the tool on
 *
 * The film is the same in all three: where a run is cut into calls has no effect. */
#include "board.h"
#include "joyce.h"

#include <stdio.h>
#include <stdlib.h>
#include <string.h>

/* The recording: what is held in each frame. L left, R right, . nothing. Seven frames to the left lead from column 10 to column 0. */
static const char recording[] = "..LLLLLLL....RRRRRRRRRRRRRRRRRR..LLL.";
enum { FRAMES = sizeof recording - 1 };

static uint8_t table[JOYCE_ACCEPTED_MAX], state[JOYCE_STATE_SIZE], page[JOYCE_PAGE_SIZE];
static uint8_t schedule[BOOT_STEPS + FRAMES * FRAME_STEPS], answers[sizeof schedule];
static size_t table_len;
static struct board_variables variables;

/* Every refusal is a mistake of this program, and says which. */
static void expect_ok(const char *call, uint32_t result)
{
    if (result == JOYCE_OK)
        return;
    fprintf(stderr, "film: %s returned %u\n", call, (unsigned)result);
    exit(1);
}

/* The host's half of a frame: it says what is held. */
static void hold_buttons(int frame)
{
    char held = recording[frame];
    joyce_put(page, strip_address(PAD_STRIP, frame), held == 'L' ? PAD_LEFT : held == 'R' ? PAD_RIGHT : PAD_NONE);
}

/* The chips' half: `count` steps from step `first` on. */
static void run_steps(size_t first, size_t count)
{
    uint32_t result = joyce_run(table, table_len, state, sizeof state, page, sizeof page, schedule + first, count, answers + first, count);
    expect_ok("joyce_run", result);
    if (answers[first + count - 1] >= JOYCE_FAILURE) {
        fprintf(stderr, "film: a chip failed, answer %u\n", answers[first + count - 1]);
        exit(1);
    }
}

/* The boot screen: a character a word, up to the first 0. */
static void show_title(void)
{
    printf("boot  |");
    for (int i = 0; i < TITLE_WORDS && joyce_get(page, TITLE + 2 * i) != 0; i++)
        putchar(joyce_get(page, TITLE + 2 * i));
    puts("|");
}

static void show_frame(int frame)
{
    char screen[COLUMNS + 1];
    int column = joyce_get(page, strip_address(FILM_STRIP, frame)), tone = joyce_get(page, strip_address(SOUND_STRIP, frame));
    memset(screen, '.', COLUMNS);
    screen[COLUMNS] = 0;
    if (column >= 0 && column < COLUMNS)
        screen[column] = '@';
    printf("%3d %c |%s| column %2d", frame, recording[frame], screen, column);
    printf(tone ? "  tone %d\n" : "\n", tone);
}

/* The first step of a frame. */
static size_t step_of(int frame)
{
    return BOOT_STEPS + (size_t)frame * FRAME_STEPS;
}

static void play_by_frames(void)
{
    run_steps(0, BOOT_STEPS);
    show_title();
    for (int frame = 0; frame < FRAMES; frame++) {
        hold_buttons(frame);
        run_steps(step_of(frame), FRAME_STEPS);
        show_frame(frame);
    }
}

static void play_by_steps(void)
{
    for (size_t step = 0; step < BOOT_STEPS; step++)
        run_steps(step, 1);
    show_title();
    for (int frame = 0; frame < FRAMES; frame++) {
        hold_buttons(frame);
        for (size_t step = 0; step < FRAME_STEPS; step++)
            run_steps(step_of(frame) + step, 1);
        show_frame(frame);
    }
}

static void play_at_once(void)
{
    for (int frame = 0; frame < FRAMES; frame++)
        hold_buttons(frame);
    run_steps(0, sizeof schedule);
    show_title();
    for (int frame = 0; frame < FRAMES; frame++)
        show_frame(frame);
}

/* What a debugger does: it asks for a variable by name, not by where it stands. */
static void show_ending(void)
{
    uint32_t column = joyce_look(table, table_len, state, sizeof state, SPRITE_UNIT, (uint32_t)variables.column, 0);
    uint32_t tone = joyce_look(table, table_len, state, sizeof state, SOUND_UNIT, (uint32_t)variables.tone, 0);
    if (column < JOYCE_WORD || tone < JOYCE_WORD) {
        fprintf(stderr, "film: joyce_look returned %u and %u\n", (unsigned)column, (unsigned)tone);
        exit(1);
    }
    printf("the sprite ends in column %d; the last tone was %d\n", joyce_integer(column), joyce_integer(tone));
}

static void write_file(const char *folder, const char *name, const uint8_t *bytes, size_t length)
{
    char path[4096];
    if (snprintf(path, sizeof path, "%s/%s", folder, name) >= (int)sizeof path) {
        fprintf(stderr, "film: the name of the folder is too long\n");
        exit(2);
    }
    FILE *file = fopen(path, "wb");
    if (!file || fwrite(bytes, 1, length, file) != length || fclose(file) != 0) {
        perror(path);
        exit(2);
    }
}

static void write_files(const char *folder)
{
    for (int frame = 0; frame < FRAMES; frame++)
        hold_buttons(frame);
    write_file(folder, "board.tab", table, table_len);
    write_file(folder, "board.page", page, sizeof page);
    write_file(folder, "board.sch", schedule, sizeof schedule);
}

int main(int argc, char **argv)
{
    const char *mode = argc > 1 ? argv[1] : "";
    table_len = build_board(table, sizeof table, &variables);
    boot_turns(schedule);
    frame_turns(schedule + BOOT_STEPS, FRAMES);
    expect_ok("joyce_check", joyce_check(table, table_len));
    expect_ok("joyce_begin", joyce_begin(table, table_len, state, sizeof state, JOYCE_START_UNSET));

    if (argc == 1)
        play_by_frames();
    else if (argc == 2 && strcmp(mode, "--pause") == 0)
        play_by_steps();
    else if (argc == 2 && strcmp(mode, "--no-pause") == 0)
        play_at_once();
    else if (argc == 3 && strcmp(mode, "--files") == 0) {
        write_files(argv[2]);
        return 0;
    } else {
        fprintf(stderr, "usage: film [--pause | --no-pause | --files FOLDER]\n");
        return 2;
    }
    show_ending();
    return 0;
}
