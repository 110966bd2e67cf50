/* board.h: a board of three chips and its clock, as a program table. examples/board.c says what each does. */
#ifndef BOARD_H
#define BOARD_H

#include <stddef.h>
#include <stdint.h>

#ifdef __cplusplus
extern "C" {
#endif

/* The device page: three strips of one word a frame, the number of the frame, and the title of the boot screen. A strip is a ring: frame 1,024 is
 * written where frame 0 was, and the number of the frame begins at 0 again. So a board may be played for ever. */
enum {
    STRIP_FRAMES = 1024, /* the frames that a strip has */
    PAD_STRIP = -8192,   /* the host writes: the buttons held in each frame */
    FILM_STRIP = -6144,  /* the sprite unit writes: the sprite's column */
    SOUND_STRIP = -4096, /* the sound unit writes: the tone, 0 for silence */
    FRAME = -2048,       /* the clock writes */
    TITLE = -1024        /* it writes there, before frame 0: TITLE_WORDS characters, a word each, those after the title 0 */
};

#define BOARD_TITLE "Joyce board"
enum { TITLE_WORDS = 16 };

enum { PAD_NONE, PAD_LEFT, PAD_RIGHT };

/* The processes, by number, and how many turns each takes in a frame. */
enum { CLOCK = 1, SOUND_UNIT, SPRITE_UNIT, PAD_READER, CHIPS = PAD_READER, TURNS = 64, FRAME_STEPS = CHIPS * TURNS };

/* The turns of the clock in which it shows the title: a call, an assignment, four for each word, the end of the loop, the end of the call. */
enum { BOOT_STEPS = 4 + 4 * TITLE_WORDS };

/* What the sprite does in a frame in which a direction is held: one and a half pixels, in 256ths. It stops at the edges of the screen. */
enum { SPEED = 384, COLUMNS = 32, START_COLUMN = 10 };

/* The tone that is heard when the sprite is moved to the left at the left edge, and for how many frames. */
enum { EDGE_TONE = 440, TONE_FRAMES = 3 };

/* The variables that a host may look at: their numbers in the table. */
struct board_variables {
    int column, tone, buttons;
};

/* The device word of a strip for a frame, any number from 0 on. */
int strip_address(int strip, long frame);

/* Writes the board's table; its length, or 0, and a line on standard error that says why, where it cannot. */
size_t build_board(uint8_t *table, size_t room, struct board_variables *variables);

/* The BOOT_STEPS turns before frame 0. */
void boot_turns(uint8_t *schedule);

/* The turns of some frames: in each, the processes 1..CHIPS one after the other, TURNS times. */
void frame_turns(uint8_t *schedule, size_t frames);

#ifdef __cplusplus
}
#endif

#endif
