/* Texts made at random, and outside texts with a few bytes changed, against the plain scanner and the tool's. */
#include "tests.h"

#include <string.h>

enum { LONGEST = 400, ROUNDS = 100000, GOOD = 36 };

/* Any bytes: most are refused at once. */
bool random_bytes(void)
{
    uint8_t text[LONGEST];
    seed = 1;
    for (int i = 0; i < ROUNDS; i++) {
        size_t length = below(20);
        for (size_t k = 0; k < length; k++)
            text[k] = (uint8_t)below(256);
        if (!agree(text, length, JOYCE_SYMBOL_SIZE * length + below(3)))
            return false;
    }
    return true;
}

/* Short texts of those bytes that mean something to a scanner. */
bool random_signs(void)
{
    static const char signs[] = "'@\"# \n<>=:.+-09817aZ mod@39'''\"\"";
    uint8_t text[LONGEST];
    seed = 2;
    for (int i = 0; i < 4 * ROUNDS; i++) {
        size_t length = below(12);
        for (size_t k = 0; k < length; k++)
            text[k] = (uint8_t)signs[below(sizeof signs - 1)];
        if (!agree(text, length, JOYCE_SYMBOL_SIZE * length))
            return false;
    }
    return true;
}

/* Symbols and comments side by side, with and without something between, and now and then something that is none. */
bool random_parts(void)
{
    static const char *const parts[] = {
        "and",    "ARRAY",  "begin", "Const",    "mod",        "modx", "x1", "procedure", "proceduree", "space", "0",  "177", "#177", "12#7",
        "..",     ".",      "<>",    "<",        "<=",         ">=",   ":=", ":",         "(",          "'a'",   "'A'", "'@39'", "'@64b'", "'@#18'",
        "'@105'", "'a''b'", "\"\"",  "\"note\"", "\"a\nb\"", " ",    "\n", ";",
        /* the others begin no symbol */
        "#8",     "''",     "'@'",   "\"open",   "'open",      "@",    "_",  "\t",        "\"\r\"",      "';"};
    uint8_t text[LONGEST];
    seed = 3;
    for (int i = 0; i < 2 * ROUNDS; i++) {
        size_t length = 0, least = below(i % 2 ? 300 : 30);
        while (length < least) {
            const char *part = parts[below(i % 3 ? GOOD : sizeof parts / sizeof *parts)];
            memcpy(text + length, part, strlen(part));
            length += strlen(part);
            if (below(2))
                text[length++] = below(4) ? ' ' : '\n';
        }
        if (!agree(text, length, JOYCE_SYMBOL_SIZE * length + below(20)))
            return false;
    }
    return true;
}

/* An outside text with one to three bytes changed, put in or taken out. */
bool damaged(void)
{
    static uint8_t text[JOYCE_TEXT_MAX + 10];
    seed = 4;
    for (int i = 0; i < ROUNDS / 5; i++) {
        const struct vector *v = &vectors[below((uint32_t)vector_count)];
        size_t length = v->length;
        if (length == 0 || length > 5000)
            continue;
        memcpy(text, v->text, length);
        for (uint32_t changes = 1 + below(3); changes > 0 && length > 0; changes--) {
            size_t at = below((uint32_t)length);
            switch (below(3)) {
            case 0: text[at] = (uint8_t)below(256); break;
            case 1: memmove(text + at, text + at + 1, --length - at); break;
            default:
                memmove(text + at + 1, text + at, length++ - at);
                text[at] = "'\"@#\n .<:"[below(9)];
            }
        }
        if (!agree(text, length, JOYCE_SYMBOL_SIZE * length))
            return false;
    }
    return true;
}
