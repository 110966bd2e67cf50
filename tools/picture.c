#include "picture.h"
#include "joyce.h"
#include "names.h"

#include <stdbool.h>
#include <stdlib.h>
#include <string.h>

enum { ADVANCED, WAITED, ENDED, FAILED, ABSENT, SORTS };
enum { WIDTH = 1200, LEFT = 130, TOP = 84, LANE = 26, GAP = 8, RIGHT = 24, SPAN = WIDTH - LEFT - RIGHT };
enum { PROCESSES = 256, COLUMNS_MAX = 1024, SHORT = COLUMNS_MAX / 4, NAME_SHOWN = 12 };

static const char *const colours[SORTS] = {"#2e9e5b", "#f2b632", "#aab4bf", "#c62828", "#7a6bd1"};
static const char *const sorts[SORTS] = {"advanced", "waited", "had ended", "failed", "no such process"};

/* A column of the picture stands for `width` steps. Of each process it has how many of its turns there were of each sort. */
struct picture {
    uint64_t before, done, width;
    uint64_t totals[PROCESSES][SORTS];
    const char *names[PROCESSES];
    bool has_lane[PROCESSES];
    uint64_t failed_at; /* the step of the picture that failed, from 1; 0 for none */
    unsigned failed_process, failure;
    const char *why; /* or null */
    uint32_t counts[PROCESSES][COLUMNS_MAX][SORTS];
};

static int sort_of(unsigned answer)
{
    switch (answer) {
    case JOYCE_DONE: return ADVANCED;
    case JOYCE_WAITS: return WAITED;
    case JOYCE_ENDED: return ENDED;
    case JOYCE_NO_PROCESS: return ABSENT;
    default: return FAILED;
    }
}

struct picture *picture_new(uint64_t before)
{
    struct picture *p = calloc(1, sizeof *p);
    if (p) {
        p->before = before;
        p->width = 1;
    }
    return p;
}

void picture_free(struct picture *p)
{
    free(p);
}

/* Makes columns twice as wide: two become one. */
static void widen(struct picture *p)
{
    for (unsigned process = 0; process < PROCESSES; process++) {
        uint32_t (*counts)[SORTS] = p->counts[process];
        if (!p->has_lane[process])
            continue;
        for (int column = 0; column < COLUMNS_MAX / 2; column++)
            for (int sort = 0; sort < SORTS; sort++)
                counts[column][sort] = counts[2 * column][sort] + counts[2 * column + 1][sort];
        memset(counts[COLUMNS_MAX / 2], 0, sizeof *counts * (COLUMNS_MAX / 2));
    }
    p->width *= 2;
}

void picture_step(struct picture *p, unsigned process, unsigned answer)
{
    int sort = sort_of(answer);
    if (p->done / p->width == COLUMNS_MAX)
        widen(p);
    p->has_lane[process] = true;
    p->counts[process][p->done / p->width][sort]++;
    p->totals[process][sort]++;
    p->done++;
}

void picture_failure(struct picture *p, unsigned process, unsigned answer, const char *why)
{
    p->why = why;
    p->failed_at = p->done;
    p->failed_process = process;
    p->failure = answer;
}

void picture_name(struct picture *p, unsigned process, const char *name)
{
    p->names[process] = name;
}

/* ---- text in XML */

/* The bytes of the character of UTF-8 that begins here; 0 where none does, or one that XML does not have. */
static int character_bytes(const unsigned char *t)
{
    int bytes = t[0] < 0x80 ? 1 : t[0] >= 0xc2 && t[0] < 0xe0 ? 2 : t[0] >= 0xe0 && t[0] < 0xf0 ? 3 : t[0] >= 0xf0 && t[0] < 0xf5 ? 4 : 0;
    for (int i = 1; i < bytes; i++)
        if ((t[i] & 0xc0) != 0x80)
            return 0;
    if ((bytes == 1 && t[0] < 32) || (t[0] == 0xe0 && t[1] < 0xa0) || (t[0] == 0xed && t[1] >= 0xa0) || (t[0] == 0xf0 && t[1] < 0x90) ||
        (t[0] == 0xf4 && t[1] >= 0x90) || (t[0] == 0xef && t[1] == 0xbf && t[2] >= 0xbe))
        return 0;
    return bytes;
}

static void put_escaped(FILE *file, const char *text)
{
    while (*text) {
        int bytes = character_bytes((const unsigned char *)text);
        switch (*text) {
        case '<': fputs("&lt;", file); break;
        case '>': fputs("&gt;", file); break;
        case '&': fputs("&amp;", file); break;
        case '"': fputs("&quot;", file); break;
        default:
            if (bytes)
                fwrite(text, 1, (size_t)bytes, file);
            else
                fputc('?', file);
        }
        text += bytes ? bytes : 1;
    }
}

/* ---- drawing */

/* Whole pixels, so that bars that touch leave no seam. */
static int x_of(const struct picture *p, uint64_t step)
{
    return LEFT + (p->done ? (int)((double)step / (double)p->done * SPAN + 0.5) : 0);
}

static int y_of(int lane)
{
    return TOP + lane * (LANE + GAP);
}

static int lane_count(const struct picture *p)
{
    int lanes = 0;
    for (unsigned process = 0; process < PROCESSES; process++)
        lanes += p->has_lane[process];
    return lanes;
}

static void draw_head(const struct picture *p, FILE *file, const char *title)
{
    int height = y_of(lane_count(p)) + 52;
    fprintf(file, "<svg xmlns=\"http://www.w3.org/2000/svg\" viewBox=\"0 0 %d %d\" width=\"%d\" height=\"%d\" role=\"img\" "
                  "font-family=\"system-ui, sans-serif\" font-size=\"13\" fill=\"#1f2933\">\n", WIDTH, height, WIDTH, height);
    fprintf(file, "<title>Turns of the processes: ");
    put_escaped(file, title);
    fprintf(file, "</title>\n<rect width=\"%d\" height=\"%d\" fill=\"#ffffff\"/>\n", WIDTH, height);
    fprintf(file, "<text x=\"16\" y=\"28\" font-size=\"17\" font-weight=\"600\">");
    put_escaped(file, title);
    if (p->before)
        fprintf(file, ": steps %llu to %llu</text>\n", (unsigned long long)p->before + 1, (unsigned long long)(p->before + p->done));
    else
        fprintf(file, ": %llu steps</text>\n", (unsigned long long)p->done);
    for (int sort = 0; sort < SORTS; sort++)
        fprintf(file, "<rect x=\"%d\" y=\"44\" width=\"14\" height=\"14\" fill=\"%s\"/><text x=\"%d\" y=\"56\">%s</text>\n",
                16 + 130 * sort, colours[sort], 36 + 130 * sort, sorts[sort]);
    if (p->width > 1)
        fprintf(file, "<text x=\"%d\" y=\"56\" text-anchor=\"end\" fill=\"#616e7c\">"
                      "a column is %llu steps, shared by what its turns came to</text>\n", WIDTH - RIGHT, (unsigned long long)p->width);
}

/* The parts of a column, from the bottom up, for the columns `from` to before `to`, which are alike. */
static void draw_columns(const struct picture *p, FILE *file, unsigned process, int lane, uint64_t from, uint64_t to)
{
    const uint32_t *count = p->counts[process][from];
    uint64_t last = to * p->width < p->done ? to * p->width : p->done, turns = 0, drawn = 0;
    int left = x_of(p, from * p->width), right = x_of(p, last), bottom = y_of(lane) + LANE;
    left -= left == right && left > LEFT; /* a short last column is seen too */
    for (int sort = 0; sort < SORTS; sort++)
        turns += count[sort];
    for (int sort = 0; sort < SORTS; sort++) {
        if (count[sort] == 0)
            continue;
        drawn += count[sort];
        int top = y_of(lane) + LANE - (int)((double)LANE * (double)drawn / (double)turns + 0.5);
        top -= top == bottom && top > y_of(lane); /* a small part is seen too */
        fprintf(file, "<rect x=\"%d\" y=\"%d\" width=\"%d\" height=\"%d\" fill=\"%s\">", left, top, right - left, bottom - top, colours[sort]);
        fprintf(file, "<title>process %u %s: steps %llu to %llu</title></rect>\n", process, sorts[sort],
                (unsigned long long)(p->before + from * p->width + 1), (unsigned long long)(p->before + last));
        bottom = top;
    }
}

static bool is_empty(const uint32_t count[SORTS])
{
    for (int sort = 0; sort < SORTS; sort++)
        if (count[sort])
            return false;
    return true;
}

/* 'process 3', or the number and the name, cut short where it is long. */
static void draw_label(const struct picture *p, FILE *file, unsigned process, int lane)
{
    const char *name = p->names[process];
    fprintf(file, "<g><title>process %u: ", process);
    if (name) {
        put_escaped(file, name);
        fputs(", ", file);
    }
    for (int sort = 0; sort < SORTS; sort++)
        fprintf(file, "%s%s %llu", sort ? ", " : "", sorts[sort], (unsigned long long)p->totals[process][sort]);
    fprintf(file, "</title><text x=\"%d\" y=\"%d\" text-anchor=\"end\">", LEFT - 12, y_of(lane) + 18);
    if (name)
        fprintf(file, "%u %.*s%s</text></g>\n", process, NAME_SHOWN, name, strlen(name) > NAME_SHOWN ? ".." : "");
    else
        fprintf(file, "process %u</text></g>\n", process);
}

static void draw_lane(const struct picture *p, FILE *file, unsigned process, int lane)
{
    uint64_t columns = (p->done + p->width - 1) / p->width;
    const uint32_t (*counts)[SORTS] = (const uint32_t (*)[SORTS])p->counts[process];
    draw_label(p, file, process, lane);
    fprintf(file, "<rect x=\"%d\" y=\"%d\" width=\"%d\" height=\"%d\" fill=\"#f1f4f7\"/>\n", LEFT, y_of(lane), SPAN, LANE);
    for (uint64_t from = 0, to; from < columns; from = to) {
        for (to = from + 1; to < columns && memcmp(counts[from], counts[to], sizeof counts[to]) == 0;)
            to++;
        if (!is_empty(counts[from]))
            draw_columns(p, file, process, lane, from, to);
    }
}

/* Ten marks at most, at round numbers of steps, and one at the last step; a label at the right edge ends there. */
static void draw_axis(const struct picture *p, FILE *file, int y)
{
    uint64_t mark = 1, step = 0;
    while (p->done / mark > 10)
        mark *= p->done / mark > 50 ? 10 : p->done / mark > 20 ? 5 : 2;
    for (bool is_last = false; !is_last; step += mark) {
        is_last = step >= p->done;
        if (is_last)
            step = p->done;
        if (!is_last && p->done - step < mark && x_of(p, p->done) - x_of(p, step) < 100)
            continue; /* no room beside the last */
        fprintf(file, "<line x1=\"%d\" x2=\"%d\" y1=\"%d\" y2=\"%d\" stroke=\"#9aa5b1\"/>"
                      "<text x=\"%d\" y=\"%d\" text-anchor=\"%s\" fill=\"#616e7c\">%llu</text>\n",
                x_of(p, step), x_of(p, step), y, y + 6, x_of(p, step), y + 22, is_last && step ? "end" : "middle",
                (unsigned long long)(p->before + step));
    }
    fprintf(file, "<text x=\"%d\" y=\"%d\" text-anchor=\"end\" fill=\"#616e7c\">steps</text>\n", LEFT - 50, y + 22);
}

static void draw_failure(const struct picture *p, FILE *file, int y)
{
    if (p->failed_at == 0)
        return;
    int x = x_of(p, p->failed_at - 1);
    fprintf(file, "<line x1=\"%d\" x2=\"%d\" y1=\"%d\" y2=\"%d\" stroke=\"#7f1d1d\" stroke-width=\"2\"/>\n", x, x, TOP - 8, y);
    fprintf(file, "<text x=\"%d\" y=\"%d\" fill=\"#7f1d1d\">step %llu, process %u: %u, ", LEFT, y + 42,
            (unsigned long long)(p->before + p->failed_at), p->failed_process, p->failure);
    put_escaped(file, answer_words(p->failure));
    if (p->why) {
        fputs(": ", file);
        put_escaped(file, p->why);
    }
    fprintf(file, "</text>\n");
}

/* In a long run a column has at least two turns of each process, where they take turns evenly. */
void picture_write(struct picture *p, FILE *file, const char *title)
{
    int lane = 0;
    while (p->done > SHORT && p->width < 2u * (unsigned)lane_count(p))
        widen(p);
    draw_head(p, file, title);
    for (unsigned process = 0; process < PROCESSES; process++)
        if (p->has_lane[process])
            draw_lane(p, file, process, lane++);
    draw_axis(p, file, y_of(lane));
    draw_failure(p, file, y_of(lane));
    fprintf(file, "</svg>\n");
}
