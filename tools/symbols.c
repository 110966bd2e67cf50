/* The command symbols: the symbols of a text, or where none begins. */
#include "joyce.h"
#include "names.h"
#include "scan.h"
#include "tool.h"

#include <stdio.h>
#include <stdlib.h>

static const char *kind_words(unsigned kind)
{
    switch (kind) {
    case JOYCE_SYMBOL_SPECIAL: return "special";
    case JOYCE_SYMBOL_WORD: return "word";
    case JOYCE_SYMBOL_NAME: return "name";
    case JOYCE_SYMBOL_NUMERAL: return "numeral";
    case JOYCE_SYMBOL_CHARACTER: return "character";
    case JOYCE_SYMBOL_STRING: return "string";
    default: return "no kind";
    }
}

/* A line a symbol. No symbol holds a byte that cannot be printed. */
static void print_symbols(struct bytes text, const uint8_t *out, size_t count)
{
    size_t line_begins = 0, passed = 0;
    for (size_t i = 0; i < count; i++) {
        struct joyce_piece piece = joyce_symbol_at(out, i);
        for (; passed < piece.place; passed++)
            if (text.at[passed] == '\n')
                line_begins = passed + 1;
        printf("line %u, column %zu: %s ", piece.line, piece.place - line_begins + 1, kind_words(piece.kind));
        fwrite(text.at + piece.place, 1, piece.length, stdout);
        putchar('\n');
    }
}

/* Of a byte that is no character: what it may be, and what to write. */
static const char *byte_words(int b)
{
    return b == '\t' ? ", a tab; write spaces" : b == '\r' ? ", a return; lines end with byte 10 alone" : b > 127 ? ", beyond ASCII" : "";
}

/* A place, and what stands there. */
static void print_place(struct bytes text, size_t place)
{
    struct spot spot = spot_of(text.at, place);
    printf("  line %zu, column %zu: ", spot.line, spot.column);
    if (place == text.length)
        puts("the text ends there");
    else if (text.at[place] == '\n')
        puts("a new line stands there");
    else if (text.at[place] >= ' ' && text.at[place] <= '~')
        printf("%c stands there\n", text.at[place]);
    else
        printf("byte %u stands there%s\n", text.at[place], byte_words(text.at[place]));
}

static void print_gap(struct bytes text, const struct gap *gap)
{
    print_place(text, gap->place);
    if (gap->wrong != gap->place)
        print_place(text, gap->wrong);
    printf("  %s\n", gap->why);
}

/* What the tool's own scanner makes of the text, as a result of the library. A gap is held to it once more: what stands before it has symbols. */
static uint32_t scanned(struct bytes text, uint8_t *out, size_t room, struct gap *gap)
{
    size_t count;
    if (text.length > JOYCE_TEXT_MAX)
        return JOYCE_LENGTH;
    if (scan_text(text.at, text.length, &count, gap))
        return JOYCE_SYMBOLS + (uint32_t)count;
    return joyce_symbols(text.at, gap->place, out, room) >= JOYCE_SYMBOLS ? JOYCE_NO_SYMBOL : 0;
}

static int split(const char *name, struct bytes text, uint8_t *out, size_t room)
{
    struct gap gap;
    uint32_t own = scanned(text, out, room, &gap), result = joyce_symbols(text.at, text.length, out, room);
    printf("%s: %s%zu bytes, ", name, text.length > JOYCE_TEXT_MAX ? "at least " : "", text.length);
    if (result >= JOYCE_SYMBOLS)
        printf("%u symbol%s\n", (unsigned)(result - JOYCE_SYMBOLS), result == JOYCE_SYMBOLS + 1 ? "" : "s");
    else
        printf("refused with %u: %s\n", (unsigned)result, result == JOYCE_LENGTH ? "a text has at most 65535 bytes" : result_words(result));
    if (own != result) {
        complain("%s: the library returns %u, and the tool's scanner %u: one of them is wrong. Please report it, with the text.", name,
                 (unsigned)result, (unsigned)own);
        return CONTRADICTED;
    }
    if (result == JOYCE_NO_SYMBOL)
        print_gap(text, &gap);
    if (result < JOYCE_SYMBOLS)
        return REFUSED;
    print_symbols(text, out, result - JOYCE_SYMBOLS);
    return DONE;
}

int symbols_command(int count, char **words)
{
    count = take_options("symbols", count, words, NULL, 0);
    if (count != 1)
        stop("symbols: one text is needed; see joyce symbols --help");
    struct bytes text = read_file(words[0], JOYCE_TEXT_MAX + 1);
    size_t room = JOYCE_SYMBOL_SIZE * text.length;
    uint8_t *out = malloc(room + 1);
    if (!out)
        stop("%s: no memory", words[0]);
    int status = split(words[0], text, out, room);
    free(out);
    free(text.at);
    return status;
}
