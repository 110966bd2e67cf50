/* The three tests that a user asked for, over the public calls:
 *
 *     1. a sprite moved left at one and a half pixels, -384 / 256, stays on the screen;
 *     2. one pad recording played frame by frame and without a pause gives the same answers, state and device words;
 *     3. the same chips under thousands of odd orders of turns: references are always of their module. */
#include "board.h"
#include "builder.h"
#include "reader.h"
#include "support.h"
#include "tests.h"

#include <string.h>

enum { FRAMES = 64, STEPS = FRAMES * FRAME_STEPS, SCREEN = 32 };

struct film {
    struct run_state run;
    uint8_t answers[STEPS];
};

static struct board_variables variables;
static uint8_t turns[STEPS];

static bool start_film(struct film *film)
{
    static uint8_t bytes[JOYCE_ACCEPTED_MAX];
    build_board(bytes, sizeof bytes, &variables);
    boot_turns(turns);
    memset(film, 0, sizeof *film);
    if (!begin_with(&film->run, board, JOYCE_START_UNSET) || !run_turns(&film->run, turns, BOOT_STEPS, film->answers))
        return false;
    frame_turns(turns, FRAMES);
    return true;
}

static void hold(struct film *film, int frame, int buttons)
{
    joyce_put(film->run.page, PAD_STRIP + 2 * frame, buttons);
}

static bool play(struct film *film, size_t first, size_t count)
{
    return run_turns(&film->run, turns + first, count, film->answers + first);
}

/* ---- 1 */

static bool sprite_moved_left_stays_on_the_screen(void)
{
    static const int columns[] = {9, 7, 6, 4, 3, 1, 0}; /* from 10, by one and a half each frame */
    static struct film film;
    if (!start_film(&film) || !play(&film, 0, FRAME_STEPS))
        return false;
    for (int i = 0; i < 7; i++) {
        int frame = 1 + i;
        hold(&film, frame, PAD_LEFT);
        if (!play(&film, (size_t)frame * FRAME_STEPS, FRAME_STEPS))
            return false;
        uint32_t seen = joyce_look(board.bytes, board.length, film.run.state, sizeof film.run.state, SPRITE_UNIT,
                                   (uint32_t)variables.column, 0);
        int column = joyce_integer(seen), drawn = joyce_get(film.run.page, FILM_STRIP + 2 * frame);
        if (seen < JOYCE_WORD || column < 0 || column >= SCREEN)
            return bad("in frame %d the sprite is off the screen: look returned %u", frame, (unsigned)seen);
        if (column != columns[i] || drawn != column)
            return bad("in frame %d the sprite is in column %d and drawn in %d, not %d", frame, column, drawn, columns[i]);
    }
    return true;
}

/* ---- 2 */

enum { MODES = 4 };
static const char *const modes[MODES] = {"frame by frame", "without a pause", "step by step", "in odd pieces"};

/* The recording, played in one of the modes. Without a pause the whole of it is handed over before. */
static bool play_recording(struct film *film, const uint8_t *recording, int mode)
{
    if (!start_film(film))
        return false;
    for (int frame = 0; frame < FRAMES && mode == 1; frame++)
        hold(film, frame, recording[frame]);
    if (mode == 1)
        return play(film, 0, STEPS);
    for (int frame = 0; frame < FRAMES; frame++) {
        hold(film, frame, recording[frame]);
        for (size_t at = 0, count; at < FRAME_STEPS; at += count) {
            count = mode == 0 ? FRAME_STEPS : mode == 2 ? 1 : 1 + below(90);
            count = count < FRAME_STEPS - at ? count : FRAME_STEPS - at;
            if (!play(film, (size_t)frame * FRAME_STEPS + at, count))
                return false;
        }
    }
    return true;
}

static bool recording_by_frames_and_without_pause(void)
{
    static struct film films[MODES];
    uint8_t recording[FRAMES];
    seed = 60;
    for (int round = 0; round < 10 / SHARE; round++) {
        for (int frame = 0; frame < FRAMES; frame++)
            recording[frame] = (uint8_t)below(3);
        for (int mode = 0; mode < MODES; mode++) {
            if (!play_recording(&films[mode], recording, mode))
                return false;
            if (memcmp(films[mode].answers, films[0].answers, sizeof films[0].answers) != 0)
                return bad("played %s, the answers are others than %s", modes[mode], modes[0]);
            if (memcmp(films[mode].run.state, films[0].run.state, JOYCE_STATE_SIZE) != 0)
                return bad("played %s, the state is another than %s", modes[mode], modes[0]);
            if (memcmp(films[mode].run.page, films[0].run.page, JOYCE_PAGE_SIZE) != 0)
                return bad("played %s, the device words are others than %s", modes[mode], modes[0]);
        }
    }
    return true;
}

/* ---- 3 */

/*  Chips that hand references on, in the report's grammar, but that cell names desk before it is declared: a table may, a text may not.
 *
 *    process cell(home: desk)
 *      var friend: cell; none: desk; n: integer
 *      procedure meet(other: cell; var old: cell) begin old := friend; friend := other end
 *    begin
 *      cycle n < 6 do n := n + 1; if home <> none do home.leave(friend) end end
 *    end
 *    process desk
 *      var kept: cell; visits: integer
 *      procedure leave(var x: cell) var t: cell begin t := kept; kept := x; x := t; visits := visits + 1 end
 *    begin
 *      cycle visits > 0 do visits := visits - 1 end
 *    end
 *    type place = record c: cell; d: desk end; places = array 1..4 of place
 *    var d: desk; list: places; i: integer; last: cell
 *  begin
 *    create d; start d;
 *    while i < 12 do
 *      i := i + 1;
 *      create list[i mod 4 + 1].c; list[i mod 4 + 1].d := d; start list[i mod 4 + 1].c(list[i mod 4 + 1].d);
 *      list[i mod 4 + 1].c.meet(last, last);
 *      last := list[i mod 4 + 1].c
 *    end
 *  end. */
enum { CELL = 1, MEET = 2, DESK = 3, LEAVE = 4 };

static struct builder b;

static void write_cell(int cell_type, int desk_type)
{
    int home = add_value_parameter(&b, CELL, desk_type), friend = add_local(&b, CELL, cell_type), none = add_local(&b, CELL, desk_type);
    int count = add_local(&b, CELL, INTEGER);
    int other = add_value_parameter(&b, MEET, cell_type), old = add_var_parameter(&b, MEET, cell_type);
    begin_body(&b, CELL);
    put_cycle(&b);
    put_arm(&b, binary(&b, '<', value(&b, count), integer(&b, 6)));
    put_assign(&b, whole(&b, count), binary(&b, '+', value(&b, count), integer(&b, 1)));
    put_if(&b);
    put_arm(&b, binary(&b, '#', value(&b, home), value(&b, none)));
    put_process_call(&b, whole(&b, home), LEAVE, 1, whole(&b, friend));
    put_end(&b);
    put_end(&b);
    end_body(&b);
    begin_body(&b, MEET);
    put_assign(&b, whole(&b, old), value(&b, friend));
    put_assign(&b, whole(&b, friend), value(&b, other));
    end_body(&b);
}

static void write_desk(int cell_type)
{
    int kept = add_local(&b, DESK, cell_type), visits = add_local(&b, DESK, INTEGER);
    int x = add_var_parameter(&b, LEAVE, cell_type), t = add_local(&b, LEAVE, cell_type);
    begin_body(&b, DESK);
    put_cycle(&b);
    put_arm(&b, binary(&b, '>', value(&b, visits), integer(&b, 0)));
    put_assign(&b, whole(&b, visits), binary(&b, '-', value(&b, visits), integer(&b, 1)));
    put_end(&b);
    end_body(&b);
    begin_body(&b, LEAVE);
    put_assign(&b, whole(&b, t), value(&b, kept));
    put_assign(&b, whole(&b, kept), value(&b, x));
    put_assign(&b, whole(&b, x), value(&b, t));
    put_assign(&b, whole(&b, visits), binary(&b, '+', value(&b, visits), integer(&b, 1)));
    end_body(&b);
}

/* the field of list[i mod 4 + 1] */
static int entry(int list, int i, int place)
{
    int index = binary(&b, '+', binary(&b, '%', value(&b, i), integer(&b, 4)), integer(&b, 1));
    return field(&b, element(&b, whole(&b, list), index), place);
}

static void write_main(int cell_type, int desk_type)
{
    int pair = record_type(&b, 2, cell_type, desk_type);
    int d = add_local(&b, 0, desk_type), list = add_local(&b, 0, array_type(&b, INTEGER, pair, 1, 4));
    int i = add_local(&b, 0, INTEGER), last = add_local(&b, 0, cell_type);
    begin_body(&b, 0);
    put_create(&b, whole(&b, d));
    put_start(&b, whole(&b, d), 0);
    put_while(&b);
    put_arm(&b, binary(&b, '<', value(&b, i), integer(&b, 12)));
    put_assign(&b, whole(&b, i), binary(&b, '+', value(&b, i), integer(&b, 1)));
    put_create(&b, entry(list, i, 0));
    put_assign(&b, entry(list, i, 1), value(&b, d));
    put_start(&b, entry(list, i, 0), 1, value_at(&b, entry(list, i, 1)));
    put_process_call(&b, entry(list, i, 0), MEET, 2, value(&b, last), whole(&b, last));
    put_assign(&b, whole(&b, last), value_at(&b, entry(list, i, 0)));
    put_end(&b);
    end_body(&b);
}

static struct table reference_board(void)
{
    static uint8_t bytes[JOYCE_ACCEPTED_MAX];
    start_table(&b);
    int cell_type = process_type(&b, CELL), desk_type = process_type(&b, DESK);
    add_program(&b);
    add_procedure(&b, add_module(&b));
    add_procedure(&b, add_module(&b));
    write_main(cell_type, desk_type);
    write_cell(cell_type, desk_type);
    write_desk(cell_type);
    return (struct table){bytes, finish_table(&b, bytes, sizeof bytes), JOYCE_ACCEPTED};
}

/* The next turn of an odd order: long bursts of one process, favourites, and numbers that no process has. */
static uint8_t odd_turn(uint8_t last, uint32_t favour)
{
    switch (below(8)) {
    case 0: return (uint8_t)below(256);
    case 1: return (uint8_t)(1 + below(14));
    case 2: return (uint8_t)favour;
    case 3: return 1;
    default: return last;
    }
}

/* One order of turns, in calls of odd lengths; the rule is tried after each. */
static bool try_order(struct run_state *r, const struct program *program, uint32_t number, unsigned *named)
{
    uint8_t schedule[64], answers[64], last = 1;
    uint32_t favour = 1 + below(14);
    if (!begin_with(r, r->table, number))
        return false;
    for (int call = 0; call < 24; call++) {
        size_t count = 1 + below(64);
        for (size_t i = 0; i < count; i++)
            schedule[i] = last = odd_turn(last, favour);
        if (!run_turns(r, schedule, count, answers))
            return false;
        for (size_t i = 0; i < count; i++)
            if (answers[i] > JOYCE_NO_PROCESS)
                return bad("process %u answered %u", schedule[i], answers[i]);
        if (!references_hold(program, r->state, named))
            return bad("a reference is not of its module");
    }
    return true;
}

static bool references_of_their_module(struct table table, uint32_t number, int orders)
{
    static struct run_state r;
    struct program program;
    unsigned named = 0;
    if (joyce_check(table.bytes, table.length) != JOYCE_ACCEPTED)
        return bad("the verdict on the board is %u", (unsigned)joyce_check(table.bytes, table.length));
    r.table = table;
    read_program(&program, table.bytes, table.length);
    for (int order = 0; order < orders; order++) {
        seed = (uint64_t)(order + 1) * 1000003u;
        if (!try_order(&r, &program, number, &named))
            return false;
    }
    return named > (unsigned)orders || bad("only %u references were met", named);
}

static bool odd_orders_of_the_chips(void)
{
    return references_of_their_module(board, JOYCE_START_UNSET, 4000 / SHARE);
}

static bool odd_orders_of_chips_that_hand_references_on(void)
{
    return references_of_their_module(reference_board(), JOYCE_START_ZEROS, 4000 / SHARE); /* it counts from 0 */
}

void story_tests(void)
{
    run_test("sprite_moved_left_stays_on_the_screen", sprite_moved_left_stays_on_the_screen);
    run_test("recording_by_frames_and_without_pause", recording_by_frames_and_without_pause);
    run_test("references_under_odd_orders", odd_orders_of_the_chips);
    run_test("references_handed_on_under_odd_orders", odd_orders_of_chips_that_hand_references_on);
}
