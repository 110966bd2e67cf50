/* Tests of joyce_symbols as a C program meets it. A line 'ok NAME' or 'FAIL NAME: why' a test.
 *
 *     symbols VECTORS
 *
 * VECTORS holds outside vectors, records of: a long L and L bytes of text; a long, the length of the lent slice; a byte k and k bytes, the numbers of
 * open readings that the record touches; a long, the result; and where that is 65,536 + n, 7 n bytes. A long has four bytes, low first. */
#define _DEFAULT_SOURCE
#include "tests.h"
#include "scan.h"
#include "scanner.h"

#include <pthread.h>
#include <setjmp.h>
#include <signal.h>
#include <stdarg.h>
#include <stdio.h>
#include <stdlib.h>
#include <string.h>
#include <sys/mman.h>
#include <unistd.h>

enum { TEXT_ROOM = 65536, OUT_ROOM = 7 * 65536, FILL = 0xa5 };

struct vector *vectors;
size_t vector_count;
uint64_t seed;

/* ---- results */

static int failures;
static char why[400];

bool bad(const char *format, ...)
{
    va_list args;
    va_start(args, format);
    vsnprintf(why, sizeof why, format, args);
    va_end(args);
    return false;
}

static sigjmp_buf crashed;

static void on_signal(int number)
{
    siglongjmp(crashed, number);
}

static void run(const char *name, bool (*test)(void))
{
    int number = sigsetjmp(crashed, 1);
    alarm(300);
    bool is_ok = number ? bad("signal %d", number) : test();
    if (is_ok) {
        printf("ok symbols/%s\n", name);
    } else {
        printf("FAIL symbols/%s: %s\n", name, why);
        failures++;
    }
    fflush(stdout);
}

uint32_t below(uint32_t limit)
{
    seed ^= seed >> 12;
    seed ^= seed << 25;
    seed ^= seed >> 27;
    return (uint32_t)((seed * 0x2545F4914F6CDD1Du) >> 33) % limit;
}

/* ---- vectors */

static uint8_t *read_file(const char *name, size_t *length)
{
    FILE *file = fopen(name, "rb");
    if (!file || fseek(file, 0, SEEK_END) || ftell(file) < 0) {
        fprintf(stderr, "cannot read %s\n", name);
        exit(2);
    }
    *length = (size_t)ftell(file);
    rewind(file);
    uint8_t *bytes = malloc(*length + 1);
    if (!bytes || fread(bytes, 1, *length, file) != *length) {
        fprintf(stderr, "cannot read %s\n", name);
        exit(2);
    }
    fclose(file);
    return bytes;
}

struct reader {
    const uint8_t *at;
    size_t left;
};

static const uint8_t *take(struct reader *r, size_t count)
{
    const uint8_t *at = r->at;
    if (count > r->left)
        return NULL;
    r->at += count;
    r->left -= count;
    return at;
}

static bool take_long(struct reader *r, size_t *number)
{
    const uint8_t *p = take(r, 4);
    if (p)
        *number = p[0] + 256u * p[1] + 65536u * p[2] + 16777216u * p[3];
    return p != NULL;
}

static bool take_vector(struct reader *r, struct vector *v)
{
    size_t result;
    const uint8_t *k;
    if (!take_long(r, &v->length) || !(v->text = take(r, v->length)) || !take_long(r, &v->room) || !(k = take(r, 1)) || !take(r, *k) ||
        !take_long(r, &result))
        return false;
    v->result = (uint32_t)result;
    v->bytes = take(r, result < JOYCE_SYMBOLS ? 0 : JOYCE_SYMBOL_SIZE * (result - JOYCE_SYMBOLS));
    return v->bytes != NULL;
}

static bool load(const char *name)
{
    struct reader r;
    r.at = read_file(name, &r.left);
    while (r.left > 0) {
        if ((vector_count & (vector_count + 1)) == 0)
            vectors = realloc(vectors, (2 * vector_count + 2) * sizeof *vectors);
        if (!vectors || !take_vector(&r, &vectors[vector_count++]))
            return false;
    }
    return vector_count > 0;
}

/* ---- one call */

/* How a text begins, for where a test fails. */
static const char *shown(const uint8_t *text, size_t length)
{
    static char line[41];
    size_t count = length < 40 ? length : 40;
    for (size_t i = 0; i < count; i++)
        line[i] = (char)(text[i] >= ' ' && text[i] <= '~' ? text[i] : '?');
    line[count] = 0;
    return line;
}

static size_t written(uint32_t result)
{
    return result < JOYCE_SYMBOLS ? 0 : JOYCE_SYMBOL_SIZE * (size_t)(result - JOYCE_SYMBOLS);
}

static bool is_filled(const uint8_t *bytes, size_t length)
{
    for (size_t i = 0; i < length; i++)
        if (bytes[i] != FILL)
            return false;
    return true;
}

/* In place: the text must stay, and of out only so many bytes may change. */
static bool call_is(const uint8_t *text, size_t length, uint8_t *out, size_t room, uint32_t result, const uint8_t *bytes)
{
    size_t count = written(result);
    memset(out, FILL, room);
    uint32_t r = joyce_symbols(text, length, out, room);
    if (r != result)
        return bad("%zu bytes, %s: the result is %u, not %u", length, shown(text, length), (unsigned)r, (unsigned)result);
    if (count > 0 && memcmp(out, bytes, count))
        return bad("%zu bytes, %s: other symbols", length, shown(text, length));
    return is_filled(out + count, room - count) || bad("%zu bytes: a byte after the %zu of symbols was written", length, count);
}

bool symbols_are(const uint8_t *text, size_t length, size_t room, uint32_t result, const uint8_t *bytes)
{
    uint8_t *copy = malloc(length + 1), *out = malloc(room + 1);
    if (!copy || !out)
        return bad("no memory");
    memcpy(copy + 1, text, length);
    out[0] = FILL;
    bool is_ok = call_is(copy + 1, length, out + 1, room, result, bytes);
    is_ok = is_ok && (memcmp(copy + 1, text, length) == 0 || bad("the text was changed"));
    is_ok = is_ok && (out[0] == FILL || bad("the byte before out was written"));
    free(copy);
    free(out);
    return is_ok;
}

/* ---- the tool's scanner */

/* Where the tool says that no symbol begins: before it the text has symbols, and from it on no beginning of the text has. */
static bool is_gap(const uint8_t *text, size_t length, size_t place)
{
    static uint8_t out[OUT_ROOM];
    if (place >= length)
        return bad("%zu bytes: a gap at their end", length);
    if (joyce_symbols(text, place, out, sizeof out) < JOYCE_SYMBOLS)
        return bad("%zu bytes: there is a gap before %zu", length, place);
    for (size_t end = place + 1; end <= length && end < place + 30; end++)
        if (joyce_symbols(text + place, end - place, out, sizeof out) != JOYCE_NO_SYMBOL)
            return bad("%zu bytes: a symbol begins at %zu", length, place);
    return true;
}

static bool tool_says(const uint8_t *text, size_t length, uint32_t result)
{
    size_t count;
    struct gap gap = {0, 0, NULL};
    if (length > JOYCE_TEXT_MAX || result == JOYCE_LENGTH)
        return true;
    if (scan_text(text, length, &count, &gap))
        return result == JOYCE_SYMBOLS + count || bad("%zu bytes, %s: %zu symbols by the tool", length, shown(text, length), count);
    if (result != JOYCE_NO_SYMBOL)
        return bad("%zu bytes, %s: a gap by the tool", length, shown(text, length));
    if (!gap.why || gap.wrong < gap.place || gap.wrong > length)
        return bad("%zu bytes: no reason for the gap at %zu", length, gap.place);
    return is_gap(text, length, gap.place);
}

bool agree(const uint8_t *text, size_t length, size_t room)
{
    static uint8_t out[OUT_ROOM + 64];
    memset(out, FILL, room);
    uint32_t result = plain_symbols(text, length, out, room);
    return symbols_are(text, length, room, result, out) && tool_says(text, length, result);
}

/* ---- tests on vectors */

static bool vectors_agree(void)
{
    for (size_t i = 0; i < vector_count; i++) {
        const struct vector *v = &vectors[i];
        if (!symbols_are(v->text, v->length, v->room, v->result, v->bytes))
            return false;
    }
    return true;
}

static bool plain_agrees(uint32_t (*symbols)(const uint8_t *, size_t, uint8_t *, size_t))
{
    static uint8_t out[OUT_ROOM + 64];
    for (size_t i = 0; i < vector_count; i++) {
        const struct vector *v = &vectors[i];
        size_t count = written(v->result);
        memset(out, FILL, v->room);
        uint32_t r = symbols(v->text, v->length, out, v->room);
        if (r != v->result || (count && memcmp(out, v->bytes, count)) || !is_filled(out + count, v->room - count))
            return bad("record %zu: the plain scanner returns %u, not %u", i, (unsigned)r, (unsigned)v->result);
    }
    return true;
}

static bool plain_vectors(void)
{
    return plain_agrees(plain_symbols) && plain_agrees(plain_symbols_once);
}

static bool tool_vectors(void)
{
    for (size_t i = 0; i < vector_count; i++)
        if (!tool_says(vectors[i].text, vectors[i].length, vectors[i].result))
            return false;
    return true;
}

/* Slices of any length: 1 where they are shorter than seven bytes for each of text, whatever the number of symbols. */
static bool rooms(void)
{
    static const uint8_t text[] = "  begin  end", faulty[] = "a % b";
    uint8_t bytes[14] = {2, 1, 0, 2, 0, 5, 0, 2, 1, 0, 9, 0, 3, 0};
    for (size_t room = 0; room < 7 * 12 + 20; room++)
        if (!symbols_are(text, 12, room, room < 7 * 12 ? JOYCE_LENGTH : JOYCE_SYMBOLS + 2, bytes) ||
            !symbols_are(faulty, 5, room, room < 7 * 5 ? JOYCE_LENGTH : JOYCE_NO_SYMBOL, NULL))
            return false;
    return true;
}

static bool prefixes(void)
{
    size_t tried = 0;
    for (size_t i = 0; i < vector_count; i += 7) {
        const struct vector *v = &vectors[i];
        for (size_t length = 0; v->length < 300 && length <= v->length; length++, tried++)
            if (!agree(v->text, length, JOYCE_SYMBOL_SIZE * length))
                return false;
    }
    return tried > 1000 || bad("%zu texts only", tried);
}

/* Kind, line, place and length are what the header's reader gives. */
static bool read_by_header(void)
{
    static const uint8_t text[] = "\"a\n\" x :=\n'@64b'";
    uint8_t out[7 * 16];
    uint32_t r = joyce_symbols(text, 16, out, sizeof out);
    struct joyce_piece name = joyce_symbol_at(out, 0), sign = joyce_symbol_at(out, 1), string = joyce_symbol_at(out, 2);
    if (r != JOYCE_SYMBOLS + 3 || name.kind != JOYCE_SYMBOL_NAME || sign.kind != JOYCE_SYMBOL_SPECIAL || string.kind != JOYCE_SYMBOL_STRING)
        return bad("result %u, kinds %u, %u, %u", (unsigned)r, name.kind, sign.kind, string.kind);
    return (name.line == 2 && name.place == 5 && name.length == 1 && sign.line == 2 && sign.place == 7 && sign.length == 2 && string.line == 3 &&
            string.place == 10 && string.length == 6) ||
           bad("another line, place or length");
}

/* ---- limits */

static uint8_t longest[JOYCE_TEXT_MAX + 1], longest_out[OUT_ROOM];

/* The longest text of one byte, its last one another: so many symbols, and the last of them. */
static bool longest_is(int byte, int last, size_t count, struct joyce_piece end)
{
    memset(longest, byte, sizeof longest);
    longest[JOYCE_TEXT_MAX - 1] = (uint8_t)last;
    uint32_t r = joyce_symbols(longest, JOYCE_TEXT_MAX, longest_out, JOYCE_SYMBOL_SIZE * JOYCE_TEXT_MAX);
    if (r != JOYCE_SYMBOLS + count)
        return bad("bytes %d, then %d: the result is %u", byte, last, (unsigned)r);
    if (count == 0)
        return true;
    struct joyce_piece p = joyce_symbol_at(longest_out, count - 1);
    return (p.kind == end.kind && p.line == end.line && p.place == end.place && p.length == end.length) ||
           bad("bytes %d, then %d: kind %u, line %u, place %u, length %u", byte, last, p.kind, p.line, p.place, p.length);
}

static bool limits(void)
{
    struct joyce_piece name = {JOYCE_SYMBOL_NAME, 1, 0, 65535}, sign = {JOYCE_SYMBOL_SPECIAL, 1, 65534, 1},
                       lowest = {JOYCE_SYMBOL_NUMERAL, 65535, 65534, 1}, none = {0, 0, 0, 0};
    return longest_is('a', 'Z', 1, name) && longest_is('+', '+', 65535, sign) && longest_is('\n', '7', 1, lowest) && longest_is('\n', '\n', 0, none) &&
           longest_is('"', ' ', 0, none);
}

/* Lengths that no memory has are among them: seven times such a one may be a small number. A longer slice is no fault, however long. */
static bool too_long(void)
{
    static const size_t lengths[] = {JOYCE_TEXT_MAX + 1, SIZE_MAX / JOYCE_SYMBOL_SIZE, SIZE_MAX / JOYCE_SYMBOL_SIZE + 1, SIZE_MAX};
    memset(longest, ' ', sizeof longest);
    memset(longest_out, FILL, sizeof longest_out);
    for (size_t i = 0; i < sizeof lengths / sizeof *lengths; i++) {
        uint32_t r = joyce_symbols(longest, lengths[i], longest_out, sizeof longest_out);
        if (r != JOYCE_LENGTH || !is_filled(longest_out, sizeof longest_out))
            return bad("%zu bytes: the result is %u, or out was written", lengths[i], (unsigned)r);
    }
    uint32_t r = joyce_symbols(longest, JOYCE_TEXT_MAX, longest_out, SIZE_MAX);
    return r == JOYCE_SYMBOLS || bad("the longest slice: the result is %u", (unsigned)r);
}

static bool null_pointers(void)
{
    uint8_t out[5];
    memset(out, FILL, sizeof out);
    uint32_t both = joyce_symbols(NULL, 0, NULL, 0), text = joyce_symbols(NULL, 0, out, sizeof out), room = joyce_symbols(out, 1, NULL, 0);
    if (both != JOYCE_SYMBOLS || text != JOYCE_SYMBOLS || room != JOYCE_LENGTH)
        return bad("the results are %u, %u, %u", (unsigned)both, (unsigned)text, (unsigned)room);
    return is_filled(out, sizeof out) || bad("out was written");
}

/* ---- slices at pages that may not be touched */

static uint8_t *text_fence, *out_fence; /* the pages before and after them are shut */

static uint8_t *build_fence(size_t room)
{
    size_t page = (size_t)sysconf(_SC_PAGESIZE);
    uint8_t *all = mmap(NULL, room + 2 * page, PROT_NONE, MAP_PRIVATE | MAP_ANONYMOUS, -1, 0);
    if (all == MAP_FAILED || mprotect(all + page, room, PROT_READ | PROT_WRITE))
        return NULL;
    return all + page;
}

/* Text and out at the ends of their fences or at their beginnings; the text may only be read meanwhile. */
static bool fenced(bool is_text_last, bool is_out_last)
{
    for (size_t i = 0; i < vector_count; i++) {
        const struct vector *v = &vectors[i];
        if (v->room > OUT_ROOM)
            continue;
        uint8_t *text = text_fence + (is_text_last ? TEXT_ROOM - v->length : 0);
        uint8_t *out = out_fence + (is_out_last ? OUT_ROOM - v->room : 0);
        memcpy(text, v->text, v->length);
        if (mprotect(text_fence, TEXT_ROOM, PROT_READ))
            return bad("mprotect");
        bool is_ok = call_is(text, v->length, out, v->room, v->result, v->bytes);
        if (mprotect(text_fence, TEXT_ROOM, PROT_READ | PROT_WRITE) || !is_ok)
            return is_ok ? bad("mprotect") : false;
    }
    return true;
}

static bool before_shut_pages(void)
{
    return fenced(true, true);
}

static bool after_shut_pages(void)
{
    return fenced(false, false);
}

static bool between_shut_pages(void)
{
    return fenced(true, false) && fenced(false, true);
}

/* ---- threads */

enum { THREADS = 4 };

static void *call_often(void *own)
{
    uint8_t *out = own;
    for (size_t i = 0; i < vector_count; i++) {
        const struct vector *v = &vectors[i];
        if (v->room <= OUT_ROOM &&
            (joyce_symbols(v->text, v->length, out, v->room) != v->result || memcmp(out, v->bytes, written(v->result))))
            return NULL;
    }
    return own;
}

/* At the same time, each with a stack of 256 KiB. */
static bool threads(void)
{
    pthread_t thread[THREADS];
    pthread_attr_t small;
    uint8_t *out[THREADS];
    bool is_ok = pthread_attr_init(&small) == 0 && pthread_attr_setstacksize(&small, 256 * 1024) == 0;
    for (int i = 0; i < THREADS; i++)
        if (!(out[i] = malloc(OUT_ROOM)) || pthread_create(&thread[i], &small, call_often, out[i]))
            return bad("no thread");
    for (int i = 0; i < THREADS; i++) {
        void *end;
        is_ok = pthread_join(thread[i], &end) == 0 && end == out[i] && is_ok;
        free(out[i]);
    }
    pthread_attr_destroy(&small);
    return is_ok || bad("a thread has other symbols");
}

int main(int argc, char **argv)
{
    if (argc != 2 || !load(argv[1]) || !(text_fence = build_fence(TEXT_ROOM)) || !(out_fence = build_fence(OUT_ROOM))) {
        fprintf(stderr, "usage: symbols VECTORS\n");
        return 2;
    }
    signal(SIGSEGV, on_signal);
    signal(SIGBUS, on_signal);
    signal(SIGALRM, on_signal);
    printf("# %zu outside vectors\n", vector_count);
    run("vectors", vectors_agree);
    run("plain_vectors", plain_vectors);
    run("tool_vectors", tool_vectors);
    run("rooms", rooms);
    run("prefixes", prefixes);
    run("read_by_header", read_by_header);
    run("limits", limits);
    run("too_long", too_long);
    run("null_pointers", null_pointers);
    run("before_shut_pages", before_shut_pages);
    run("after_shut_pages", after_shut_pages);
    run("between_shut_pages", between_shut_pages);
    run("threads", threads);
    run("random_bytes", random_bytes);
    run("random_signs", random_signs);
    run("random_parts", random_parts);
    run("damaged", damaged);
    return failures > 0;
}
