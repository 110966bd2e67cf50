/* A paint chip, which fills the part of a picture that its pen is in by a procedure that calls itself; how much space its heading must reserve, and
 * what happens with less.
 *
 *     paint                 prints the story
 *     paint --files FOLDER  writes paint.tab, with a space too small, paint.page and paint.sch, to try the tool on
 *
 * The picture is on the device page, a word a cell, and has a wall around it. The text of the chip, in the report's grammar:
 *
 *    const picture = #160000; pen = #170000; columns = 12; empty = 0; colour = 1
 *
 *    process paint space 288
 *      procedure fill(c: integer; r: integer)
 *      begin
 *        if val(picture + 2 * (columns * r + c)) = empty do
 *          write(picture + 2 * (columns * r + c), colour);
 *          fill(c + 1, r); fill(c - 1, r); fill(c, r + 1); fill(c, r - 1)
 *        end
 *      end
 *    begin fill(val pen, val(pen + 2)) end
 *
 * A call of fill takes 4 words and one for each of c and r: 6. The heading reserves one call of it, and its space, which is in bytes: where fill is n
 * deep, 2 * 6 * (n - 1) bytes. How deep it gets is up to the picture; the story finds the least space that is enough by trying.
 *
 * The other chip does the same by sweeps over the picture. Its procedures do not call themselves, so it needs no space, but it takes its time:
 *
 *    process sweep
 *      var more: boolean; c: integer; r: integer
 *      procedure spread
 *      begin
 *        if (cell(c, r) = empty) and ((cell(c - 1, r) = colour) or .. (cell(c, r + 1) = colour)) do
 *          write(picture + 2 * (columns * r + c), colour); more := true
 *        end
 *      end
 *    begin
 *      write(picture + 2 * (columns * val(pen + 2) + val pen), colour); more := true;
 *      while more do
 *        more := false; r := 1;
 *        while r < rows - 1 do
 *          c := 1;
 *          while c < columns - 1 do spread; c := c + 1 end;
 *          r := r + 1
 *        end
 *      end
 *    end
 *
 * where cell(c, r) stands for val(picture + 2 * (columns * r + c)). */
#include "builder.h"
#include "joyce.h"

#include <stdio.h>
#include <stdlib.h>
#include <string.h>

enum { COLUMNS = 12, ROWS = 7, PICTURE = -8192, PEN = -4096 };
enum { EMPTY, COLOUR, WALL };
enum { CLOCK = 1, CHIP = 2, STEPS = 20000, BOOT = 3 };
enum { TOO_SMALL = 60 };

static const char picture[ROWS][COLUMNS + 1] = {
    "############", /* the pen is put on column 1 of row 1 */
    "#....#.....#",
    "#.##.#.###.#",
    "#.#..#.#.#.#",
    "#.#.##.#.#.#",
    "#.#......#.#",
    "############",
};

static struct builder b;
static uint8_t table[JOYCE_ACCEPTED_MAX], state[JOYCE_STATE_SIZE], page[JOYCE_PAGE_SIZE], schedule[STEPS], answers[STEPS];
static size_t table_len;

static void stop(const char *what, unsigned number)
{
    fprintf(stderr, "paint: %s %u\n", what, number);
    exit(1);
}

/* ---- the tables */

/* picture + 2 * (columns * r + c) */
static int address_of(int c, int r)
{
    int place = binary(&b, '+', binary(&b, '*', integer(&b, COLUMNS), r), c);
    return binary(&b, '+', integer(&b, PICTURE), binary(&b, '*', integer(&b, 2), place));
}

static int pen(int coordinate)
{
    return device(&b, integer(&b, PEN + 2 * coordinate));
}

/* the value of a variable, moved by so many */
static int moved(int variable, int by)
{
    return by == 0 ? value(&b, variable) : binary(&b, by > 0 ? '+' : '-', value(&b, variable), integer(&b, abs(by)));
}

/* The program creates and starts the chip, which is block 1. */
static void write_program(int chip)
{
    begin_body(&b, 0);
    put_create(&b, whole(&b, chip));
    put_start(&b, whole(&b, chip), 0);
    end_body(&b);
}

static void finish(void)
{
    table_len = finish_table(&b, table, sizeof table);
    if (table_len == 0) {
        fprintf(stderr, "paint: %s\n", builder_mistake(&b));
        exit(1);
    }
}

static void build_paint(int space)
{
    start_table(&b);
    int type = process_type(&b, 1), chip = add_local(&b, add_program(&b), type), module = add_module(&b), fill = add_procedure(&b, module);
    int c = add_value_parameter(&b, fill, INTEGER), r = add_value_parameter(&b, fill, INTEGER);
    set_space(&b, module, space);
    write_program(chip);

    begin_body(&b, module);
    put_call(&b, fill, 2, pen(0), pen(1));
    end_body(&b);

    begin_body(&b, fill);
    put_if(&b);
    put_arm(&b, binary(&b, '=', device(&b, address_of(value(&b, c), value(&b, r))), integer(&b, EMPTY)));
    {
        put_write(&b, address_of(value(&b, c), value(&b, r)), integer(&b, COLOUR));
        put_call(&b, fill, 2, moved(c, 1), moved(r, 0));
        put_call(&b, fill, 2, moved(c, -1), moved(r, 0));
        put_call(&b, fill, 2, moved(c, 0), moved(r, 1));
        put_call(&b, fill, 2, moved(c, 0), moved(r, -1));
    }
    put_end(&b);
    end_body(&b);
    finish();
}

static int has_colour(int c, int by_columns, int r, int by_rows)
{
    return binary(&b, '=', device(&b, address_of(moved(c, by_columns), moved(r, by_rows))), integer(&b, COLOUR));
}

static void write_spread(int procedure, int c, int r, int more)
{
    int beside = binary(&b, '|', has_colour(c, -1, r, 0), has_colour(c, 1, r, 0));
    int near = binary(&b, '|', beside, binary(&b, '|', has_colour(c, 0, r, -1), has_colour(c, 0, r, 1)));
    int is_empty = binary(&b, '=', device(&b, address_of(value(&b, c), value(&b, r))), integer(&b, EMPTY));
    begin_body(&b, procedure);
    put_if(&b);
    put_arm(&b, binary(&b, '&', is_empty, near));
    put_write(&b, address_of(value(&b, c), value(&b, r)), integer(&b, COLOUR));
    put_assign(&b, whole(&b, more), boolean(&b, true));
    put_end(&b);
    end_body(&b);
}

static void build_sweep(void)
{
    start_table(&b);
    int type = process_type(&b, 1), chip = add_local(&b, add_program(&b), type), module = add_module(&b);
    int more = add_local(&b, module, BOOLEAN), c = add_local(&b, module, INTEGER), r = add_local(&b, module, INTEGER);
    int spread = add_procedure(&b, module);
    write_program(chip);

    begin_body(&b, module);
    put_write(&b, address_of(pen(0), pen(1)), integer(&b, COLOUR));
    put_assign(&b, whole(&b, more), boolean(&b, true));
    put_while(&b);
    put_arm(&b, value(&b, more));
    put_assign(&b, whole(&b, more), boolean(&b, false));
    put_assign(&b, whole(&b, r), integer(&b, 1));
    put_while(&b);
    put_arm(&b, binary(&b, '<', value(&b, r), integer(&b, ROWS - 1)));
    put_assign(&b, whole(&b, c), integer(&b, 1));
    put_while(&b);
    put_arm(&b, binary(&b, '<', value(&b, c), integer(&b, COLUMNS - 1)));
    put_call(&b, spread, 0);
    put_assign(&b, whole(&b, c), moved(c, 1));
    put_end(&b);
    put_assign(&b, whole(&b, r), moved(r, 1));
    put_end(&b);
    put_end(&b);
    end_body(&b);
    write_spread(spread, c, r, more);
    finish();
}

/* ---- the run */

static void put_picture(void)
{
    memset(page, 0, sizeof page);
    for (int r = 0; r < ROWS; r++)
        for (int c = 0; c < COLUMNS; c++)
            joyce_put(page, PICTURE + 2 * (COLUMNS * r + c), picture[r][c] == '#' ? WALL : EMPTY);
    joyce_put(page, PEN, 1);
    joyce_put(page, PEN + 2, 1);
}

/* Runs the table from its beginning; how many steps the chip made, up to its end or its failure. */
static size_t run_table(unsigned *answer)
{
    put_picture();
    uint32_t result = joyce_begin(table, table_len, state, sizeof state, JOYCE_START_UNSET);
    if (result != JOYCE_OK)
        stop("joyce_begin returned", (unsigned)result);
    result = joyce_run(table, table_len, state, sizeof state, page, sizeof page, schedule, STEPS, answers, STEPS);
    if (result != JOYCE_OK)
        stop("joyce_run returned", (unsigned)result);
    size_t last = BOOT;
    while (last < STEPS && answers[last] == JOYCE_DONE)
        last++;
    if (last == STEPS)
        stop("the schedule is too short:", STEPS);
    *answer = answers[last];
    return last - BOOT + 1;
}

static void show_picture(void)
{
    static const char cells[] = ".*#";
    for (int r = 0; r < ROWS; r++) {
        printf("    ");
        for (int c = 0; c < COLUMNS; c++)
            putchar(cells[joyce_get(page, PICTURE + 2 * (COLUMNS * r + c))]);
        putchar('\n');
    }
}

/* ---- the story */

static void tell(const char *title)
{
    unsigned answer;
    size_t steps = run_table(&answer);
    if (answer == JOYCE_ENDED)
        printf("%s: painted in %zu steps\n", title, steps);
    else if (answer == JOYCE_AREA)
        printf("%s: no room for the call of step %zu (22)\n", title, steps);
    else
        stop("the chip answers", answer);
    show_picture();
}

static void tell_paint(int space)
{
    char title[40];
    build_paint(space);
    snprintf(title, sizeof title, "fill with space %d", space);
    tell(title);
}

static int least_space(void)
{
    for (int space = 0; space <= JOYCE_SPACE_MAX; space += 2) {
        unsigned answer;
        build_paint(space);
        run_table(&answer);
        if (answer == JOYCE_ENDED)
            return space;
    }
    stop("the picture is too much for an area: space", JOYCE_SPACE_MAX);
    return 0;
}

static void write_file(const char *folder, const char *name, const uint8_t *bytes, size_t length)
{
    char path[4096];
    if (snprintf(path, sizeof path, "%s/%s", folder, name) >= (int)sizeof path)
        stop("the name of the folder is longer than", sizeof path);
    FILE *file = fopen(path, "wb");
    if (!file || fwrite(bytes, 1, length, file) != length || fclose(file) != 0) {
        perror(path);
        exit(2);
    }
}

static void write_files(const char *folder)
{
    build_paint(TOO_SMALL);
    put_picture();
    write_file(folder, "paint.tab", table, table_len);
    write_file(folder, "paint.page", page, sizeof page);
    write_file(folder, "paint.sch", schedule, 1000);
}

int main(int argc, char **argv)
{
    for (size_t i = 0; i < STEPS; i++)
        schedule[i] = i < BOOT ? CLOCK : CHIP;
    if (argc == 3 && strcmp(argv[1], "--files") == 0) {
        write_files(argv[2]);
        return 0;
    }
    if (argc != 1) {
        fprintf(stderr, "usage: paint [--files FOLDER]\n");
        return 2;
    }
    int least = least_space(), words = JOYCE_CALL_WORDS + 2;
    tell_paint(0);
    printf("the least space that is enough is %d: %d calls of %d words, the first of which needs none\n", least, 1 + least / (2 * words), words);
    tell_paint(least - 2);
    tell_paint(least);
    build_sweep();
    tell("sweeps, with no recursion and no space");
    return 0;
}
