/* A fuzz target of joyce_symbols, for libFuzzer (make fuzz) or AFL++, and for fuzz/texts.c, which makes inputs of its own.
 *
 * An input: a byte that says how long the lent slice is, and the text.
 *
 * What must hold of any input: nothing crashes or is touched beside a slice; the result is one of joyce.h; a refusal changes no lent byte; symbols
 * have a kind, a line that is one more than the new lines before them, and bytes that lie in the text one after the other; the bytes after theirs
 * stay. The plain scanner of bench/ leaves the same, and its branches guide the fuzzer.
 *
 * With -DCOUNT it says at its end how many of the texts have symbols, and how many of these. */
#include "joyce.h"
#include "scanner.h"

#include <stdbool.h>
#include <stdio.h>
#include <stdlib.h>
#include <string.h>

int LLVMFuzzerTestOneInput(const uint8_t *data, size_t size);

enum { FILL = 0x5a };

static void expect(bool is_so, const char *what)
{
    if (is_so)
        return;
    fprintf(stderr, "fuzz: %s\n", what);
    abort();
}

/* Exactly so many bytes, so that a sanitizer sees one too far. */
static uint8_t *filled(size_t length)
{
    uint8_t *bytes = malloc(length ? length : 1);
    expect(bytes != NULL, "no memory");
    memset(bytes, FILL, length ? length : 1);
    return bytes;
}

/* Mostly what is needed or a little more; one byte in 16 asks for too little. */
static size_t room_of(uint8_t flag, size_t length)
{
    size_t needed = JOYCE_SYMBOL_SIZE * length;
    if (flag % 16 == 15 && needed > 0)
        return needed - 1 - flag / 16 % needed;
    return needed + (flag % 16 < 8 ? 0 : flag / 16);
}

static void check_symbols(const uint8_t *text, size_t length, const uint8_t *out, size_t count)
{
    size_t passed = 0, lines = 1;
    for (size_t i = 0; i < count; i++) {
        struct joyce_piece piece = joyce_symbol_at(out, i);
        expect(piece.kind >= JOYCE_SYMBOL_SPECIAL && piece.kind <= JOYCE_SYMBOL_STRING, "a kind that is none");
        expect(piece.place >= passed && piece.length > 0 && piece.place + piece.length <= length, "a symbol beside the text, or over another");
        for (; passed < piece.place; passed++)
            lines += text[passed] == '\n';
        expect(piece.line == lines, "a wrong line");
        expect(!memchr(text + piece.place, '\n', piece.length), "a new line in a symbol");
        passed = piece.place + piece.length;
    }
}

/* ---- what the inputs were */

#ifdef COUNT
static unsigned long inputs, split, symbols;

static void tell(void)
{
    fprintf(stderr, "%lu inputs, %.1f %% have symbols, %.1f each\n", inputs, 100.0 * (double)split / (double)inputs,
            (double)symbols / (double)(split ? split : 1));
}

static void count_input(size_t count)
{
    if (inputs++ == 0)
        atexit(tell);
    split += count > 0;
    symbols += count;
}
#else
#define count_input(count) ((void)(count))
#endif

int LLVMFuzzerTestOneInput(const uint8_t *data, size_t size)
{
    if (size == 0)
        return 0;
    size_t length = size - 1, room = room_of(data[0], length);
    uint8_t *text = filled(length), *out = filled(room), *plain = filled(room);
    memcpy(text, data + 1, length);
    uint32_t result = joyce_symbols(text, length, out, room);
    size_t count = result >= JOYCE_SYMBOLS ? result - JOYCE_SYMBOLS : 0;
    expect(result >= JOYCE_SYMBOLS || result == JOYCE_NO_SYMBOL || result == JOYCE_LENGTH, "what is no result");
    expect((result == JOYCE_LENGTH) == (length > JOYCE_TEXT_MAX || room < JOYCE_SYMBOL_SIZE * length), "a length is judged wrongly");
    expect(count <= length, "more symbols than bytes");
    check_symbols(text, length, out, count);
    for (size_t i = JOYCE_SYMBOL_SIZE * count; i < room; i++)
        expect(out[i] == FILL, "a byte after the symbols was written");
    expect(memcmp(text, data + 1, length) == 0, "the text was changed");
    expect(plain_symbols(text, length, plain, room) == result && memcmp(plain, out, room) == 0, "not as the plain scanner");
    count_input(count);
    free(text);
    free(out);
    free(plain);
    return 0;
}
