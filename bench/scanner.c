/* A plain scanner of Joyce texts in C, with nothing proved: what the benchmark compares joyce_symbols with, and a second opinion for the tests and
 * the fuzz target. Written from section 3.2 of the report and 02 (a), not from the library. Like the library it keeps no memory of its own, and a
 * refusal leaves the lent bytes as they were: so a text is scanned once for its number of symbols, and once more to write them. A variant with
 * memory of its own scans once. */
#include "scanner.h"

#include <stdbool.h>
#include <string.h>

enum { LENGTH = 1, NO_SYMBOL = 25, FOUND = 65536, LONGEST = 65535, SIZE = 7 };
enum { SPECIAL = 1, WORD, NAME, NUMERAL, CHARACTER, STRING };
enum { LETTER = 1, DIGIT = 2, OCTAL = 4, GRAPHIC = 8, SIGN = 16 };

static const char *const words[] = {"and", "array", "begin", "const", "create", "cycle", "do", "else", "end", "if", "mod", "not", "of", "or",
                                    "procedure", "process", "record", "skip", "space", "start", "type", "val", "var", "when", "while"};

/* The first word that begins with a letter or a later one; the last number is that of all words. */
static const uint8_t first[27] = {0, 2, 3, 6, 7, 9, 9, 9, 9, 10, 10, 10, 10, 11, 12, 14, 16, 16, 17, 20, 21, 21, 23, 25, 25, 25, 25};

struct scanner {
    const uint8_t *at, *end; /* what is left */
    unsigned line;
    const uint8_t *class; /* of each byte */
};

static void set_classes(uint8_t class[256])
{
    memset(class, 0, 256);
    for (int b = ' '; b <= '~'; b++)
        class[b] = GRAPHIC;
    for (int i = 0; i < 26; i++) {
        class['a' + i] |= LETTER;
        class['A' + i] |= LETTER;
    }
    for (int i = 0; i < 10; i++)
        class['0' + i] |= i < 8 ? DIGIT | OCTAL : DIGIT;
    for (const char *sign = "+-*/=<>:()[].,;"; *sign; sign++)
        class[(uint8_t)*sign] |= SIGN;
}

static const uint8_t *past(const struct scanner *s, const uint8_t *p, int class)
{
    while (p < s->end && s->class[*p] & class)
        p++;
    return p;
}

/* Past spaces, new lines and comments, to a symbol or the end; false at a comment that is none. */
static bool pass(struct scanner *s)
{
    for (; s->at < s->end; s->at++) {
        if (*s->at == '\n') {
            s->line++;
        } else if (*s->at == '"') {
            const uint8_t *p = s->at + 1;
            for (; p < s->end && *p != '"'; p++)
                if (*p == '\n')
                    s->line++;
                else if (!(s->class[*p] & GRAPHIC))
                    return false;
            if (p == s->end)
                return false;
            s->at = p;
        } else if (*s->at != ' ') {
            break;
        }
    }
    return true;
}

static bool is_word(const uint8_t *name, size_t length)
{
    int letter = (*name | 32) - 'a';
    for (int i = first[letter]; i < first[letter + 1]; i++) {
        const char *word = words[i];
        size_t n = 1;
        while (n < length && word[n] == (name[n] | 32)) /* a capital and its small letter differ in this bit, and a digit has it */
            n++;
        if (n == length && !word[n])
            return true;
    }
    return false;
}

/* The end of a numeral, or where it should begin. */
static const uint8_t *numeral(const struct scanner *s, const uint8_t *p)
{
    if (p == s->end || *p != '#')
        return past(s, p, DIGIT);
    const uint8_t *end = past(s, p + 1, OCTAL);
    return end == p + 1 ? p : end;
}

/* The end of a constant, and how many characters it has; null where it is none. */
static const uint8_t *constant(const struct scanner *s, const uint8_t *p, size_t *count)
{
    *count = 0;
    for (p++; p < s->end && *p != '\''; ++*count) {
        if (*p == '@') {
            const uint8_t *end = numeral(s, p + 1);
            if (end == p + 1)
                return NULL;
            p = end;
        } else if (s->class[*p] & GRAPHIC) {
            p++;
        } else {
            return NULL;
        }
    }
    return p < s->end && *count > 0 ? p + 1 : NULL;
}

static const uint8_t *special(const struct scanner *s, const uint8_t *p)
{
    int next = p + 1 < s->end ? p[1] : 0;
    switch (*p) {
    case '<': return p + (next == '>' || next == '=' ? 2 : 1);
    case '>':
    case ':': return p + (next == '=' ? 2 : 1);
    case '.': return p + (next == '.' ? 2 : 1);
    default: return p + 1;
    }
}

/* The end of the symbol that begins here; null where none begins. */
static const uint8_t *symbol(const struct scanner *s)
{
    const uint8_t *p = s->at, *end;
    size_t count;
    int class = s->class[*p];
    if (class & LETTER)
        return past(s, p + 1, LETTER | DIGIT);
    if (class & SIGN)
        return special(s, p);
    if (class & DIGIT || *p == '#')
        return (end = numeral(s, p)) == p ? NULL : end;
    return *p == '\'' ? constant(s, p, &count) : NULL;
}

static int kind(const struct scanner *s, const uint8_t *end)
{
    size_t count;
    int class = s->class[*s->at];
    if (class & LETTER)
        return is_word(s->at, (size_t)(end - s->at)) ? WORD : NAME;
    if (class & SIGN)
        return SPECIAL;
    if (*s->at != '\'')
        return NUMERAL;
    constant(s, s->at, &count);
    return count == 1 ? CHARACTER : STRING;
}

static uint8_t *put_word(uint8_t *to, size_t word)
{
    to[0] = (uint8_t)word;
    to[1] = (uint8_t)(word >> 8);
    return to + 2;
}

static void put(uint8_t *to, int kind, size_t line, size_t place, size_t length)
{
    *to = (uint8_t)kind;
    to = put_word(to + 1, line);
    to = put_word(to, place);
    put_word(to, length);
}

/* The result; the symbols are written where `to` is not null. */
static uint32_t scan(struct scanner s, uint8_t *to)
{
    const uint8_t *text = s.at;
    for (uint32_t count = 0; pass(&s); count++) {
        if (s.at == s.end)
            return FOUND + count;
        const uint8_t *end = symbol(&s);
        if (!end)
            return NO_SYMBOL;
        if (to) {
            put(to, kind(&s, end), s.line, (size_t)(s.at - text), (size_t)(end - s.at));
            to += SIZE;
        }
        s.at = end;
    }
    return NO_SYMBOL;
}

/* The result where the text need not be scanned, else 0. */
static uint32_t judge_lengths(size_t text_length, size_t out_length)
{
    if (text_length > LONGEST || out_length < SIZE * text_length)
        return LENGTH;
    return text_length == 0 ? FOUND : 0;
}

uint32_t plain_symbols(const uint8_t *text, size_t text_length, uint8_t *out, size_t out_length)
{
    uint8_t class[256];
    uint32_t result = judge_lengths(text_length, out_length);
    if (result)
        return result;
    set_classes(class);
    struct scanner s = {text, text + text_length, 1, class};
    result = scan(s, NULL);
    return result > FOUND ? scan(s, out) : result;
}

uint32_t plain_symbols_once(const uint8_t *text, size_t text_length, uint8_t *out, size_t out_length)
{
    static uint8_t found[SIZE * LONGEST];
    uint8_t class[256];
    uint32_t result = judge_lengths(text_length, out_length);
    if (result)
        return result;
    set_classes(class);
    struct scanner s = {text, text + text_length, 1, class};
    result = scan(s, found);
    if (result > FOUND)
        memcpy(out, found, SIZE * (size_t)(result - FOUND));
    return result;
}
