/* A board of three chips and its clock. Each chip is a module, and one process carries it out; the text that its table stands for is written
 * above it, in the report's grammar. The device addresses are constants of the whole text, in octal, for the grammar has no negative numerals:
 *
 *    const pads = #160000; film = #164000; sounds = #170000; clock = #174000; screen = #176000; last = 31
 *    type line = array 0..15 of char
 *
 * Every variable is given a value before it is retrieved, so the board is begun with JOYCE_START_UNSET.
 */
#include "board.h"
#include "builder.h"

#include <stdio.h>

static struct builder b;

/* the device word number `frame` of a strip */
static int strip(int address, int frame)
{
    return binary(&b, '+', integer(&b, address), binary(&b, '*', integer(&b, 2), value(&b, frame)));
}

static int frame_word(void)
{
    return device(&b, integer(&b, FRAME));
}

/*  process sound
 *    var tone: integer; rest: integer; frame: integer
 *    procedure play(pitch: integer)
 *    begin tone := pitch; rest := 3 end
 *  begin
 *    tone := 0; rest := 0; frame := 0;
 *    cycle val clock <> frame do
 *      frame := val clock;
 *      if rest > 0 do write(sounds + 2 * frame, tone); rest := rest - 1
 *      else true do write(sounds + 2 * frame, 0)
 *      end
 *    end
 *  end
 *
 *  A tone lasts for three frames. While its guard is false the cycle gives up the chip's variables, and a call of play may come in. */
struct sound {
    int module, play, tone, rest, frame, pitch;
};

static void declare_sound(struct sound *s)
{
    s->module = add_module(&b);
    s->tone = add_local(&b, s->module, INTEGER);
    s->rest = add_local(&b, s->module, INTEGER);
    s->frame = add_local(&b, s->module, INTEGER);
    s->play = add_procedure(&b, s->module);
    s->pitch = add_value_parameter(&b, s->play, INTEGER);
}

static void write_sound(const struct sound *s)
{
    begin_body(&b, s->module);
    put_assign(&b, whole(&b, s->tone), integer(&b, 0));
    put_assign(&b, whole(&b, s->rest), integer(&b, 0));
    put_assign(&b, whole(&b, s->frame), integer(&b, 0));
    put_cycle(&b);
    put_arm(&b, binary(&b, '#', frame_word(), value(&b, s->frame)));
    {
        put_assign(&b, whole(&b, s->frame), frame_word());
        put_if(&b);
        put_arm(&b, binary(&b, '>', value(&b, s->rest), integer(&b, 0)));
        {
            put_write(&b, strip(SOUND_STRIP, s->frame), value(&b, s->tone));
            put_assign(&b, whole(&b, s->rest), binary(&b, '-', value(&b, s->rest), integer(&b, 1)));
        }
        put_arm(&b, boolean(&b, true));
        put_write(&b, strip(SOUND_STRIP, s->frame), integer(&b, 0));
        put_end(&b);
    }
    put_end(&b);
    end_body(&b);

    begin_body(&b, s->play);
    put_assign(&b, whole(&b, s->tone), value(&b, s->pitch));
    put_assign(&b, whole(&b, s->rest), integer(&b, TONE_FRAMES));
    end_body(&b);
}

/*  process sprite(bell: sound)
 *    var column: integer; part: integer; frame: integer; moved: boolean
 *    procedure move(speed: integer)
 *      var path: integer
 *    begin
 *      path := part + speed;
 *      column := column + path / 256;
 *      part := path mod 256;
 *      if column < 0 do column := 0; part := 0
 *      else column > last do column := last; part := 0
 *      end;
 *      frame := val clock;
 *      moved := true;
 *      if (column = 0) and (speed < 0) do bell.play(440) end
 *    end
 *  begin
 *    column := 10; part := 0; moved := false;
 *    cycle moved do
 *      write(film + 2 * frame, column);
 *      moved := false
 *    end
 *  end
 *
 *  The speed is in 256ths of a pixel. A division rounds towards zero and mod has the dividend's sign: -384 / 256 = -1 and -384 mod 256 = -128. So
 *  seven frames to the left from column 10 end in column 0, on the screen. With a shift in place of the division they would end in column -1. */
struct sprite {
    int module, move, bell, column, part, frame, moved, speed, path;
};

static void declare_sprite(struct sprite *s, int sound_type)
{
    s->module = add_module(&b);
    s->bell = add_value_parameter(&b, s->module, sound_type);
    s->column = add_local(&b, s->module, INTEGER);
    s->part = add_local(&b, s->module, INTEGER);
    s->frame = add_local(&b, s->module, INTEGER);
    s->moved = add_local(&b, s->module, BOOLEAN);
    s->move = add_procedure(&b, s->module);
    s->speed = add_value_parameter(&b, s->move, INTEGER);
    s->path = add_local(&b, s->move, INTEGER);
}

/* column := edge; part := 0, where the sprite has gone beyond the edge */
static void write_edge(const struct sprite *s, char beyond, int edge)
{
    put_arm(&b, binary(&b, beyond, value(&b, s->column), integer(&b, edge)));
    put_assign(&b, whole(&b, s->column), integer(&b, edge));
    put_assign(&b, whole(&b, s->part), integer(&b, 0));
}

static void write_move(const struct sprite *s, const struct sound *sound)
{
    begin_body(&b, s->move);
    put_assign(&b, whole(&b, s->path), binary(&b, '+', value(&b, s->part), value(&b, s->speed)));
    put_assign(&b, whole(&b, s->column),
               binary(&b, '+', value(&b, s->column), binary(&b, '/', value(&b, s->path), integer(&b, 256))));
    put_assign(&b, whole(&b, s->part), binary(&b, '%', value(&b, s->path), integer(&b, 256)));
    put_if(&b);
    write_edge(s, '<', 0);
    write_edge(s, '>', COLUMNS - 1);
    put_end(&b);
    put_assign(&b, whole(&b, s->frame), frame_word());
    put_assign(&b, whole(&b, s->moved), boolean(&b, true));
    put_if(&b);
    put_arm(&b, binary(&b, '&', binary(&b, '=', value(&b, s->column), integer(&b, 0)),
                       binary(&b, '<', value(&b, s->speed), integer(&b, 0))));
    put_process_call(&b, whole(&b, s->bell), sound->play, 1, integer(&b, EDGE_TONE));
    put_end(&b);
    end_body(&b);
}

static void write_sprite(const struct sprite *s, const struct sound *sound)
{
    begin_body(&b, s->module);
    put_assign(&b, whole(&b, s->column), integer(&b, START_COLUMN));
    put_assign(&b, whole(&b, s->part), integer(&b, 0));
    put_assign(&b, whole(&b, s->moved), boolean(&b, false));
    put_cycle(&b);
    put_arm(&b, value(&b, s->moved));
    {
        put_write(&b, strip(FILM_STRIP, s->frame), value(&b, s->column));
        put_assign(&b, whole(&b, s->moved), boolean(&b, false));
    }
    put_end(&b);
    end_body(&b);

    write_move(s, sound);
}

/*  process pad(picture: sprite)
 *    var frame: integer; buttons: integer
 *  begin
 *    frame := -1;
 *    cycle val clock <> frame do
 *      frame := val clock;
 *      buttons := val (pads + 2 * frame);
 *      if buttons = 1 do picture.move(-384)
 *      else buttons = 2 do picture.move(384)
 *      else true do picture.move(0)
 *      end
 *    end
 *  end */
struct pad {
    int module, picture, frame, buttons;
};

static void declare_pad(struct pad *p, int sprite_type)
{
    p->module = add_module(&b);
    p->picture = add_value_parameter(&b, p->module, sprite_type);
    p->frame = add_local(&b, p->module, INTEGER);
    p->buttons = add_local(&b, p->module, INTEGER);
}

static void write_pad(const struct pad *p, const struct sprite *sprite)
{
    begin_body(&b, p->module);
    put_assign(&b, whole(&b, p->frame), minus(&b, integer(&b, 1)));
    put_cycle(&b);
    put_arm(&b, binary(&b, '#', frame_word(), value(&b, p->frame)));
    {
        put_assign(&b, whole(&b, p->frame), frame_word());
        put_assign(&b, whole(&b, p->buttons), device(&b, strip(PAD_STRIP, p->frame)));
        put_if(&b);
        put_arm(&b, binary(&b, '=', value(&b, p->buttons), integer(&b, PAD_LEFT)));
        put_process_call(&b, whole(&b, p->picture), sprite->move, 1, minus(&b, integer(&b, SPEED)));
        put_arm(&b, binary(&b, '=', value(&b, p->buttons), integer(&b, PAD_RIGHT)));
        put_process_call(&b, whole(&b, p->picture), sprite->move, 1, integer(&b, SPEED));
        put_arm(&b, boolean(&b, true));
        put_process_call(&b, whole(&b, p->picture), sprite->move, 1, integer(&b, 0));
        put_end(&b);
    }
    put_end(&b);
    end_body(&b);
}

/*  The program: it shows the title, puts the chips on the board, and then is the clock. The title has eleven characters and is filled up with
 *  characters 0 to the sixteen of a line. A beat takes four turns of the clock, and a frame sixteen beats. After 1,024 frames it counts from 0
 *  again.
 *
 *    var s: sound; p: sprite; r: pad; beat: integer
 *    procedure show(title: line)
 *      var i: integer
 *    begin
 *      i := 0;
 *      while i < 16 do write(screen + 2 * i, title[i]: integer); i := i + 1 end
 *    end
 *  begin
 *    show('Joyce board');
 *    create s; start s;
 *    create p; start p(s);
 *    create r; start r(p);
 *    beat := 0;
 *    cycle true do
 *      beat := (beat + 1) mod 16384;
 *      write(clock, beat / 16)
 *    end
 *  end. */
enum { FRAME_BEATS = TURNS / 4 };

struct show {
    int procedure, title, i;
};

static void declare_show(struct show *s, int line_type)
{
    s->procedure = add_procedure(&b, 0);
    s->title = add_value_parameter(&b, s->procedure, line_type);
    s->i = add_local(&b, s->procedure, INTEGER);
}

static void write_show(const struct show *s)
{
    begin_body(&b, s->procedure);
    put_assign(&b, whole(&b, s->i), integer(&b, 0));
    put_while(&b);
    put_arm(&b, binary(&b, '<', value(&b, s->i), integer(&b, TITLE_WORDS)));
    {
        put_write(&b, strip(TITLE, s->i), transfer(&b, value_at(&b, element(&b, whole(&b, s->title), value(&b, s->i))), INTEGER));
        put_assign(&b, whole(&b, s->i), binary(&b, '+', value(&b, s->i), integer(&b, 1)));
    }
    put_end(&b);
    end_body(&b);
}

static void write_program(int show, int s, int p, int r, int beat)
{
    begin_body(&b, 0);
    put_call(&b, show, 1, text(&b, BOARD_TITLE));
    put_create(&b, whole(&b, s));
    put_start(&b, whole(&b, s), 0);
    put_create(&b, whole(&b, p));
    put_start(&b, whole(&b, p), 1, value(&b, s));
    put_create(&b, whole(&b, r));
    put_start(&b, whole(&b, r), 1, value(&b, p));
    put_assign(&b, whole(&b, beat), integer(&b, 0));
    put_cycle(&b);
    put_arm(&b, boolean(&b, true));
    {
        put_assign(&b, whole(&b, beat),
                   binary(&b, '%', binary(&b, '+', value(&b, beat), integer(&b, 1)), integer(&b, STRIP_FRAMES * FRAME_BEATS)));
        put_write(&b, integer(&b, FRAME), binary(&b, '/', value(&b, beat), integer(&b, FRAME_BEATS)));
    }
    put_end(&b);
    end_body(&b);
}

size_t build_board(uint8_t *table, size_t room, struct board_variables *variables)
{
    struct sound sound;
    struct sprite sprite;
    struct pad pad;
    struct show show;

    /* block 0 is the program; then come a module and its procedure, twice, a module, and the program's procedure: the modules are blocks 1, 3, 5 */
    enum { SOUND_MODULE = 1, SPRITE_MODULE = 3, PAD_MODULE = 5 };
    start_table(&b);
    int sound_type = process_type(&b, SOUND_MODULE), sprite_type = process_type(&b, SPRITE_MODULE), pad_type = process_type(&b, PAD_MODULE);
    int line_type = array_type(&b, INTEGER, CHARACTER, 0, TITLE_WORDS - 1);

    int program = add_program(&b);
    int s = add_local(&b, program, sound_type), p = add_local(&b, program, sprite_type), r = add_local(&b, program, pad_type);
    int beat = add_local(&b, program, INTEGER);
    declare_sound(&sound);
    declare_sprite(&sprite, sound_type);
    declare_pad(&pad, sprite_type);
    declare_show(&show, line_type);

    write_program(show.procedure, s, p, r, beat);
    write_sound(&sound);
    write_sprite(&sprite, &sound);
    write_pad(&pad, &sprite);
    write_show(&show);
    *variables = (struct board_variables){sprite.column, sound.tone, pad.buttons};
    size_t length = finish_table(&b, table, room);
    if (length == 0)
        fprintf(stderr, "board: %s\n", builder_mistake(&b));
    return length;
}

int strip_address(int strip, long frame)
{
    return strip + 2 * (int)(frame % STRIP_FRAMES);
}

void boot_turns(uint8_t *schedule)
{
    for (size_t i = 0; i < BOOT_STEPS; i++)
        schedule[i] = CLOCK;
}

void frame_turns(uint8_t *schedule, size_t frames)
{
    for (size_t i = 0; i < frames * FRAME_STEPS; i++)
        schedule[i] = (uint8_t)(1 + i % CHIPS);
}
