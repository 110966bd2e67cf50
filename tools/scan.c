#include "scan.h"

#include <string.h>

struct scan {
    const uint8_t *text;
    size_t length;
    struct gap *gap;
};

/* Notes what is wrong, and where. Where nothing begins, the end of it is its beginning. */
static size_t blame(struct scan *s, size_t at, size_t wrong, const char *why)
{
    *s->gap = (struct gap){at, wrong, why};
    return at;
}

static bool is_graphic(int b)
{
    return b >= ' ' && b <= '~';
}

static bool is_letter(int b)
{
    return (b >= 'a' && b <= 'z') || (b >= 'A' && b <= 'Z');
}

/* Past bytes from low to high. */
static size_t run_end(const struct scan *s, size_t at, int low, int high)
{
    while (at < s->length && s->text[at] >= low && s->text[at] <= high)
        at++;
    return at;
}

/* Each of these says where what begins at a place ends: at that place where nothing does. */

static size_t name_end(const struct scan *s, size_t at)
{
    while (at < s->length && (is_letter(s->text[at]) || (s->text[at] >= '0' && s->text[at] <= '9')))
        at++;
    return at;
}

static size_t numeral_end(struct scan *s, size_t at)
{
    if (at == s->length || s->text[at] != '#')
        return run_end(s, at, '0', '9');
    size_t end = run_end(s, at + 1, '0', '7');
    return end > at + 1 ? end : blame(s, at, end, "no octal digit follows the number sign");
}

static size_t comment_end(struct scan *s, size_t at)
{
    for (size_t i = at + 1; i < s->length; i++) {
        if (s->text[i] == '"')
            return i + 1;
        if (s->text[i] != '\n' && !is_graphic(s->text[i]))
            return blame(s, at, i, "the comment has a byte that is no character");
    }
    return blame(s, at, s->length, "the comment is not closed");
}

static size_t constant_end(struct scan *s, size_t at)
{
    size_t i = at + 1;
    while (i < s->length && s->text[i] != '\'') {
        size_t end = s->text[i] == '@' ? numeral_end(s, i + 1) : i + 1;
        if (s->text[i] == '\n')
            return blame(s, at, i, "the constant is not closed in its line; an apostrophe in one is written @39");
        if (!is_graphic(s->text[i]))
            return blame(s, at, i, "the constant has a byte that is no character");
        if (s->text[i] == '@' && end == i + 1)
            return blame(s, at, i, "in a constant a numeral follows @, as in @39, the apostrophe, and @64, the sign @");
        i = end;
    }
    if (i == s->length)
        return blame(s, at, i, "the constant is not closed; an apostrophe in one is written @39");
    return i > at + 1 ? i + 1 : blame(s, at, at, "the constant has no character; an apostrophe in one is written @39");
}

/* Why no symbol begins with a byte. */
static const char *why_none(int b)
{
    switch (b) {
    case '@': return "@ stands in constants only";
    case '_': return "no symbol begins with it: a name has letters and digits only";
    case '{':
    case '}': return "no symbol begins with it: a comment stands between two quotes";
    default: return is_graphic(b) ? "no symbol begins with it" : "it is no character: those are the bytes 32..126 and the new line, 10";
    }
}

static size_t special_end(struct scan *s, size_t at)
{
    static const char *const pairs[] = {"<>", "<=", ">=", ":=", ".."};
    for (size_t i = 0; i < sizeof pairs / sizeof *pairs; i++)
        if (s->length - at > 1 && memcmp(s->text + at, pairs[i], 2) == 0)
            return at + 2;
    int b = s->text[at];
    return b && strchr("+-*/=<>:()[].,;", b) ? at + 1 : blame(s, at, at, why_none(b));
}

static size_t symbol_end(struct scan *s, size_t at)
{
    int b = s->text[at];
    if (is_letter(b))
        return name_end(s, at);
    if (b == '#' || (b >= '0' && b <= '9'))
        return numeral_end(s, at);
    if (b == '\'')
        return constant_end(s, at);
    return special_end(s, at);
}

bool scan_text(const uint8_t *text, size_t length, size_t *symbols, struct gap *gap)
{
    struct scan s = {text, length, gap};
    *symbols = 0;
    for (size_t at = 0, end; at < length; at = end) {
        bool is_comment = text[at] == '"', is_passed = is_comment || text[at] == ' ' || text[at] == '\n';
        end = is_comment ? comment_end(&s, at) : is_passed ? at + 1 : symbol_end(&s, at);
        if (end == at)
            return false;
        *symbols += !is_passed;
    }
    return true;
}

struct spot spot_of(const uint8_t *text, size_t place)
{
    struct spot spot = {1, place + 1};
    for (size_t i = 0; i < place; i++)
        if (text[i] == '\n') {
            spot.line++;
            spot.column = place - i;
        }
    return spot;
}
