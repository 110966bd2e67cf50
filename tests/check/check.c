/* Tests of joyce_check as a C program meets it. A line 'ok NAME' or 'FAIL NAME: why' a test. bench/plain.c is the second opinion.
 *
 *     check OLDER NEWER TABLE..
 *
 * OLDER and NEWER hold outside vectors: records of a word L, L bytes of table, one byte of verdict. Those of OLDER were made before there were
 * string constants: a verdict that these change, by the rules of has_changed, is the plain checker's. Each TABLE is an accepted table. */
#define _DEFAULT_SOURCE
#include "joyce.h"
#include "plain.h"
#include "program.h"

#include <pthread.h>
#include <setjmp.h>
#include <signal.h>
#include <stdarg.h>
#include <stdbool.h>
#include <stdio.h>
#include <stdlib.h>
#include <string.h>
#include <sys/mman.h>
#include <unistd.h>

enum { LONGEST = 7913, ROOM = 65536 }; /* the longest eight sections; the most bytes that a test lends */

/* ---- results */

static int failures;
static char why[400];

static bool bad(const char *format, ...)
{
    va_list args;
    va_start(args, format);
    vsnprintf(why, sizeof why, format, args);
    va_end(args);
    return false;
}

static sigjmp_buf crashed;
static pthread_t main_thread;

static void on_signal(int number)
{
    static const char message[] = "FAIL check: a signal in another thread\n";
    if (pthread_equal(pthread_self(), main_thread))
        siglongjmp(crashed, number);
    _exit(write(STDOUT_FILENO, message, sizeof message - 1) < 0 ? 2 : 1);
}

static char found[200]; /* what a test has to say besides */

static void run(const char *name, bool (*test)(void))
{
    int number = sigsetjmp(crashed, 1);
    *found = 0;
    alarm(300);
    bool is_ok = number ? bad("signal %d", number) : test();
    if (is_ok) {
        printf("ok check/%s%s\n", name, found);
    } else {
        printf("FAIL check/%s: %s\n", name, why);
        failures++;
    }
    fflush(stdout);
}

/* ---- tables */

struct table {
    const uint8_t *bytes;
    size_t length;
    uint32_t verdict;
};

static struct table *tables; /* the vectors, and then the accepted tables of the command line */
static size_t count, vectors;
static size_t *accepted; /* which of these are accepted */
static size_t accepts;

static uint8_t *read_file(const char *name, size_t *length)
{
    FILE *file = fopen(name, "rb");
    if (!file || fseek(file, 0, SEEK_END)) {
        fprintf(stderr, "cannot read %s\n", name);
        exit(2);
    }
    *length = (size_t)ftell(file);
    rewind(file);
    uint8_t *bytes = malloc(*length + 1);
    if (!bytes || fread(bytes, 1, *length, file) != *length) {
        fprintf(stderr, "cannot read %s\n", name);
        exit(2);
    }
    fclose(file);
    return bytes;
}

static void add(const uint8_t *bytes, size_t length, uint32_t verdict)
{
    if ((count & (count + 1)) == 0) {
        tables = realloc(tables, (2 * count + 2) * sizeof *tables);
        accepted = realloc(accepted, (2 * count + 2) * sizeof *accepted);
        if (!tables || !accepted)
            exit(2);
    }
    if (verdict == 0 && length > 0) /* zero bytes have no byte to change */
        accepted[accepts++] = count;
    tables[count++] = (struct table){bytes, length, verdict};
}

/* Where the first n sections end; 0 where they end early. */
static size_t sections_end(const uint8_t *bytes, size_t length, int n)
{
    static const size_t row_size[] = {7, 1, 2, 8, 1, 5, 6, 1};
    size_t at = 0;
    for (int k = 0; k < n; k++) {
        if (at >= length || length - at - 1 < bytes[at] * row_size[k])
            return 0;
        at += 1 + bytes[at] * row_size[k];
    }
    return at;
}

/* A value argument of the program is a string of another length than its parameter. */
static bool has_fitted(const struct program *g)
{
    for (int i = 0; i < g->statements; i++) {
        struct statement s = g->statement[i];
        if (s.kind != LOCAL_CALL && s.kind != PROCESS_CALL)
            continue;
        int v = g->block[s.kind == LOCAL_CALL ? s.a : s.b].first;
        for (int k = 0; k < s.d; k++, v++)
            if (value_words(g, g->type_of[g->argument[s.c + k]]) != g->words[g->variable[v].type])
                return true;
    }
    return false;
}

/* String constants change the verdict on an older table for these reasons alone: 2, where its last bytes are an eighth section; 3, where a node has
 * kind 8, which was unknown; 9, where a value argument is fitted and nothing else is wrong. */
static bool has_changed(const uint8_t *bytes, size_t length, uint32_t old)
{
    static struct program g;
    uint32_t new = plain_decode(&g, bytes, length);
    if (new == old)
        return false;
    if (old == 2)
        return sections_end(bytes, length, 8) == length;
    for (int i = 0; old == 3 && i < g.nodes; i++)
        if (g.node[i].kind == TEXT)
            return true;
    return old == 9 && new == 0 && has_fitted(&g);
}

static size_t changed[10]; /* how many older verdicts, by number */

static bool load(const char *name, bool is_older)
{
    size_t length;
    const uint8_t *bytes = read_file(name, &length);
    for (size_t at = 0; at < length;) {
        if (length - at < 3)
            return false;
        size_t size = bytes[at] + 256u * bytes[at + 1];
        if (length - at < 3 + size)
            return false;
        uint32_t verdict = bytes[at + 2 + size];
        if (is_older && verdict < 10 && has_changed(bytes + at + 2, size, verdict)) {
            changed[verdict]++;
            verdict = plain_check(bytes + at + 2, size);
        }
        add(bytes + at + 2, size, verdict);
        at += 3 + size;
    }
    vectors = count;
    return vectors > 0 && accepts > 0;
}

/* ---- pseudo-random numbers: xorshift64*, a fixed seed a test */

static uint64_t seed;

static uint32_t below(uint32_t limit)
{
    seed ^= seed >> 12;
    seed ^= seed << 25;
    seed ^= seed >> 27;
    return (uint32_t)((seed * 0x2545F4914F6CDD1Du) >> 33) % limit;
}

/* ---- memory between two pages that may not be touched */

static uint8_t *fence; /* ROOM bytes; the pages before and after them are shut */

static bool build_fence(void)
{
    size_t page = (size_t)sysconf(_SC_PAGESIZE);
    uint8_t *all = mmap(NULL, ROOM + 2 * page, PROT_NONE, MAP_PRIVATE | MAP_ANONYMOUS, -1, 0);
    fence = all + page;
    return all != MAP_FAILED && mprotect(fence, ROOM, PROT_READ | PROT_WRITE) == 0;
}

static bool open_fence(int protection)
{
    return mprotect(fence, ROOM, protection) == 0;
}

/* ---- tests */

/* A copy of the exact size, so that the sanitizer sees what the C code does with it; compared afterwards. */
static bool verdict_is(const uint8_t *bytes, size_t length, uint32_t verdict)
{
    uint8_t *copy = calloc(length ? length : 1, 1);
    if (!copy)
        return bad("no memory");
    if (length)
        memcpy(copy, bytes, length);
    uint32_t r = joyce_check(copy, length);
    bool is_same = length == 0 || memcmp(copy, bytes, length) == 0;
    free(copy);
    if (!is_same)
        return bad("the table was changed");
    return r == verdict || bad("%zu bytes: the verdict is %u, not %u", length, r, verdict);
}

/* one block, whose statements are a skip and its end */
static const uint8_t listing[] = {0, 0, 0, 1, 0, 0, 0, 0, 0, 0, 0, 0, 0, 0, 2, 0, 0, 0, 0, 0, 0, 13, 0, 0, 0, 0, 0};

static bool listing_accepted(void)
{
    return verdict_is(listing, sizeof listing, JOYCE_ACCEPTED);
}

/* zero bytes, an empty cartridge slot */
static bool empty_accepted(void)
{
    return verdict_is(listing, 0, JOYCE_ACCEPTED);
}

static bool null_accepted(void)
{
    uint32_t r = joyce_check(NULL, 0);
    return r == JOYCE_ACCEPTED || bad("the verdict is %u", r);
}

static bool vectors_agree(void)
{
    size_t wrong = 0, first = 0;
    uint32_t given = 0;
    for (size_t i = vectors; i-- > 0;) {
        uint32_t r = joyce_check(tables[i].bytes, tables[i].length);
        if (r != tables[i].verdict) {
            wrong++;
            first = i;
            given = r;
        }
    }
    snprintf(found, sizeof found, ": %zu tables. String constants changed older verdicts: %zu of 2, %zu of 3, %zu of 9", vectors, changed[2],
             changed[3], changed[9]);
    return wrong == 0 || bad("%zu of %zu differ, the first is table %zu: %u, not %u", wrong, vectors, first, given, tables[first].verdict);
}

static bool files_accepted(void)
{
    for (size_t i = vectors; i < count; i++)
        if (!verdict_is(tables[i].bytes, tables[i].length, JOYCE_ACCEPTED))
            return false;
    return count > vectors || bad("there are none");
}

/* What a table may end with as well: its first seven sections. */
static uint32_t prefix_verdict(struct table t, size_t length)
{
    return length == sections_end(t.bytes, t.length, 7) ? plain_check(t.bytes, length) : JOYCE_SECTIONS;
}

/* The sections of a prefix end early, the empty one and seven sections of eight apart. */
static bool prefixes_refused(void)
{
    for (size_t i = 0; i < accepts; i++) {
        struct table t = tables[accepted[i]];
        for (size_t length = 1; length < t.length; length++) {
            uint32_t r = joyce_check(t.bytes, length);
            if (r != prefix_verdict(t, length))
                return bad("%zu of %zu bytes of table %zu: the verdict is %u", length, t.length, accepted[i], r);
        }
    }
    return true;
}

/* A byte more is left over, or an eighth count: 0 characters are as good as none, and others are missing. */
static bool longer_refused(void)
{
    static uint8_t buffer[LONGEST + 1];
    for (size_t i = 0; i < accepts; i++) {
        struct table t = tables[accepted[i]];
        memcpy(buffer, t.bytes, t.length);
        for (int last = 0; last < 256; last += 51) {
            buffer[t.length] = (uint8_t)last;
            bool is_count = last == 0 && t.length == sections_end(t.bytes, t.length, 7);
            if (!verdict_is(buffer, t.length + 1, is_count ? JOYCE_ACCEPTED : JOYCE_SECTIONS))
                return false;
        }
    }
    return true;
}

/* No eight sections have so many bytes. */
static bool too_long_refused(void)
{
    static uint8_t buffer[1 << 22];
    for (int fill = 0; fill < 256; fill += 51)
        for (size_t length = LONGEST + 1; length <= sizeof buffer; length *= 2) {
            memset(buffer, fill, length);
            uint32_t r = joyce_check(buffer, length);
            if (r != JOYCE_SECTIONS)
                return bad("%zu bytes: the verdict is %u", length, r);
        }
    return true;
}

static size_t seen[10]; /* how many tables got each verdict */

/* The verdict on any bytes is that of the plain checker, and the bytes stay as they were. */
static bool check_any(const uint8_t *bytes, size_t length)
{
    static uint8_t before[ROOM];
    memcpy(before, bytes, length);
    uint32_t r = joyce_check(bytes, length), expected = plain_check(before, length);
    if (memcmp(before, bytes, length) != 0)
        return bad("the table was changed");
    if (r == 1 || r > 9)
        return bad("%zu bytes: the verdict is %u", length, r);
    seen[r]++;
    return r == expected || bad("%zu bytes: the verdict is %u, and %u by the plain checker", length, r, expected);
}

static bool random_bytes(void)
{
    static uint8_t buffer[512];
    seed = 1979;
    for (int round = 0; round < 200000; round++) {
        size_t length = below(sizeof buffer);
        uint32_t limit = round % 2 ? 256 : 4; /* small counts let the sections fit now and then */
        for (size_t i = 0; i < length; i++)
            buffer[i] = (uint8_t)below(limit);
        if (!check_any(buffer, length))
            return false;
    }
    return true;
}

/* Seven or eight whole sections of random rows, so that the rules above the sections are reached. */
static bool random_sections(void)
{
    static const uint32_t row_size[8] = {7, 1, 2, 8, 1, 5, 6, 1};
    static uint8_t buffer[LONGEST];
    seed = 16384;
    for (int round = 0; round < 100000; round++) {
        size_t length = 0;
        uint32_t most = round % 100 ? 6 : 256, limit = round % 3 ? 14 : 3;
        for (int k = 0; k < 7 + round % 2; k++) {
            uint32_t rows = below(most);
            buffer[length++] = (uint8_t)rows;
            for (uint32_t i = 0; i < rows * row_size[k]; i++)
                buffer[length++] = below(2) ? 0 : (uint8_t)below(limit);
        }
        if (!check_any(buffer, length))
            return false;
    }
    return true;
}

/* Accepted tables with one to four bytes changed. They meet every verdict. */
static bool mutated_tables(void)
{
    static uint8_t buffer[LONGEST];
    seed = 35328;
    memset(seen, 0, sizeof seen);
    for (int round = 0; round < 200000; round++) {
        struct table t = tables[accepted[below((uint32_t)accepts)]];
        memcpy(buffer, t.bytes, t.length);
        for (uint32_t changes = 1 + below(4); changes > 0; changes--) {
            uint8_t *byte = &buffer[below((uint32_t)t.length)];
            *byte = (uint8_t)(below(3) ? *byte + below(3) - 1 : below(256));
        }
        if (!check_any(buffer, t.length))
            return false;
    }
    for (uint32_t verdict = 0; verdict < 10; verdict++)
        if (verdict != 1 && seen[verdict] == 0)
            return bad("no table got the verdict %u", verdict);
    return true;
}

/* ---- tables as large, as deep and as repetitive as a table can be. A checker that follows every part takes for ever on some. */

struct builder {
    uint8_t bytes[LONGEST];
    size_t length;
};

static void put(struct builder *b, int n, const int *bytes)
{
    for (int i = 0; i < n; i++)
        b->bytes[b->length++] = (uint8_t)bytes[i];
}

#define PUT(b, ...) put(b, (int)(sizeof(int[]){__VA_ARGS__} / sizeof(int)), (int[]){__VA_ARGS__})

static bool built_is(const struct builder *b, uint32_t verdict)
{
    uint32_t expected = plain_check(b->bytes, b->length);
    if (expected != verdict)
        return bad("the plain checker's verdict is %u, not %u", expected, verdict);
    return verdict_is(b->bytes, b->length, verdict);
}

/* One block of a skip and its end, after the types and fields. */
static void put_rest(struct builder *b)
{
    PUT(b, 0);
    PUT(b, 1, 0, 0, 0, 0, 0, 0, 0, 0);
    PUT(b, 0);
    PUT(b, 0);
    PUT(b, 2, 0, 0, 0, 0, 0, 0, 13, 0, 0, 0, 0, 0);
}

/* The type before type 3 + i, as far as a byte can name it. */
static int before(int i)
{
    return i == 0 ? 0 : i < 254 ? i + 2 : 255;
}

/* Each record has two fields of the type before it: 2^127 words. */
static bool doubling_records(void)
{
    struct builder b = {.length = 0};
    PUT(&b, 127);
    for (int i = 0; i < 127; i++)
        PUT(&b, 1, 2 * i, 2, 0, 0, 0, 0);
    PUT(&b, 254);
    for (int i = 0; i < 127; i++)
        PUT(&b, before(i), before(i));
    put_rest(&b);
    return built_is(&b, JOYCE_SIZES);
}

/* Each array has 65,536 elements of the type before it, 254 deep. */
static bool nested_arrays(void)
{
    struct builder b = {.length = 0};
    PUT(&b, 255);
    for (int i = 0; i < 255; i++)
        PUT(&b, 2, 0, before(i), 0, 0x80, 0xff, 0x7f);
    PUT(&b, 0);
    put_rest(&b);
    return built_is(&b, JOYCE_SIZES);
}

/* Arrays of one element, 254 deep: each has one word. The last type has number 257. */
static bool thin_arrays(void)
{
    struct builder b = {.length = 0};
    PUT(&b, 255);
    for (int i = 0; i < 255; i++)
        PUT(&b, 2, 0, before(i), 7, 0, 7, 0);
    PUT(&b, 0);
    put_rest(&b);
    return built_is(&b, JOYCE_ACCEPTED);
}

/* Conditional statements, 84 deep. */
static bool nested_statements(void)
{
    enum { DEPTH = 84 };
    struct builder b = {.length = 0};
    PUT(&b, 0, 0, 0);
    PUT(&b, 1, 0, 0, 0, 0, 0, 0, 0, 0);
    PUT(&b, 0);
    PUT(&b, DEPTH);
    for (int i = 0; i < DEPTH; i++)
        PUT(&b, 0, 1, 0, 1, 0);
    PUT(&b, 3 * DEPTH + 2);
    for (int i = 0; i < DEPTH; i++)
        PUT(&b, 6 + i % 4, 0, 0, 0, 0, 0, 10, i, 0, 0, 0, 3 * DEPTH - i);
    PUT(&b, 0, 0, 0, 0, 0, 0);
    for (int i = DEPTH - 1; i >= 0; i--)
        PUT(&b, 11, 0, 0, 0, 0, 2 * i);
    PUT(&b, 13, 0, 0, 0, 0, 0);
    return built_is(&b, JOYCE_ACCEPTED);
}

/* One integer variable, and 255 nodes of which the last is assigned to it. */
static void put_expression(struct builder *b, int node[254][5])
{
    PUT(b, 0, 0);
    PUT(b, 1, 0, 0);
    PUT(b, 1, 0, 0, 0, 0, 1, 0, 0, 0);
    PUT(b, 0);
    PUT(b, 255, 1, 0, 0, 0, 0);
    for (int i = 0; i < 254; i++)
        put(b, 5, node[i]);
    PUT(b, 2, 1, 0, 254, 0, 0, 0, 13, 0, 0, 0, 0, 0);
}

/* 253 minus signs. */
static bool deep_expression(void)
{
    struct builder b = {.length = 0};
    int node[254][5] = {{0, 0, 0, 1, 0}};
    for (int i = 1; i < 254; i++)
        memcpy(node[i], (int[]){5, i, 1, 0, 0}, sizeof node[i]);
    put_expression(&b, node);
    return built_is(&b, JOYCE_ACCEPTED);
}

/* Each sum has the sum before it on both sides: 2^253 terms. */
static bool doubling_sums(void)
{
    struct builder b = {.length = 0};
    int node[254][5] = {{0, 0, 0, 1, 0}};
    for (int i = 1; i < 254; i++)
        memcpy(node[i], (int[]){6, i, i, 7, 0}, sizeof node[i]);
    put_expression(&b, node);
    return built_is(&b, JOYCE_USES);
}

/* Eight sections of 255 entries each: all that a table can be. */
static bool longest_table(void)
{
    static const int row_size[] = {7, 1, 2, 8, 1, 5, 6, 1};
    struct builder b = {.length = 0};
    for (int k = 0; k < 8; k++) {
        PUT(&b, 255);
        for (int i = 0; i < 255 * row_size[k]; i++)
            PUT(&b, k == 0 && i % 7 == 0);
    }
    return b.length == LONGEST && LONGEST == JOYCE_TABLE_MAX ? built_is(&b, JOYCE_NUMBERS) : bad("%zu bytes", b.length);
}

/* All sections but the blocks are full: a block has two statements at least. The program calls a procedure with 255 arguments. */
static bool longest_accepted(void)
{
    enum { BLOCKS = 127 };
    struct builder b = {.length = 0};
    PUT(&b, 255, 2, 0, 2, 1, 0, 2, 0, 1, 0, 128, 0, 0, 0, 0, 1, 128, 127, 0, 0, 0, 0);
    for (int i = 3; i < 255; i++)
        PUT(&b, 2, 0, 0, 1, 0, 1, 0);
    PUT(&b, 255);
    for (int i = 0; i < 255; i++)
        PUT(&b, 0);
    PUT(&b, 255);
    for (int i = 0; i < 255; i++)
        PUT(&b, 1, i == 0 ? 3 : 0);
    PUT(&b, BLOCKS, 0, 0, 0, 0, 0, 0, 0, 0);
    for (int i = 1; i < BLOCKS; i++)
        PUT(&b, 2, 0, i == 1 ? 0 : 255, i == 1 ? 255 : 0, i == 1 ? 255 : 0, 2 * i + 1, 0, 0);
    PUT(&b, 255);
    for (int i = 0; i < 255; i++)
        PUT(&b, i);
    PUT(&b, 255, 8, 0, 255, 0, 0);
    for (int i = 1; i < 255; i++)
        PUT(&b, 0, 0, 0, i, 0);
    PUT(&b, 255, 2, 1, 0, 0, 255, 0, 0, 0, 0, 0, 0, 0, 13, 0, 0, 0, 0, 0);
    for (int i = 1; i < BLOCKS; i++)
        PUT(&b, 0, 0, 0, 0, 0, 0, 13, i, 0, 0, 0, 0);
    PUT(&b, 255);
    for (int i = 0; i < 255; i++)
        PUT(&b, i % 128);
    return b.length == JOYCE_ACCEPTED_MAX ? built_is(&b, JOYCE_ACCEPTED) : bad("%zu bytes", b.length);
}

/* A constant of 255 characters, the last of which is given, is passed to a parameter of two. */
static bool string_passed(int last, uint32_t verdict)
{
    struct builder b = {.length = 0};
    PUT(&b, 1, 2, 0, 2, 1, 0, 2, 0);
    PUT(&b, 0);
    PUT(&b, 1, 1, 3);
    PUT(&b, 2, 0, 0, 0, 0, 0, 0, 0, 0, 2, 0, 0, 1, 1, 2, 0, 0);
    PUT(&b, 1, 0);
    PUT(&b, 1, 8, 0, 255, 0, 0);
    PUT(&b, 4, 2, 1, 0, 0, 1, 0, 13, 0, 0, 0, 0, 0, 0, 0, 0, 0, 0, 0, 13, 1, 0, 0, 0, 0);
    PUT(&b, 255);
    for (int i = 0; i < 255; i++)
        PUT(&b, i < 254 ? i % 128 : last);
    return built_is(&b, verdict);
}

static bool longest_string(void)
{
    return string_passed(127, JOYCE_ACCEPTED) && string_passed(128, JOYCE_TYPES) && string_passed(255, JOYCE_TYPES);
}

/* 63 comparisons of constants of two and of one characters, joined by and. */
static bool many_strings(void)
{
    enum { PAIRS = 63 };
    struct builder b = {.length = 0};
    PUT(&b, 0, 0);
    PUT(&b, 1, 0, 1);
    PUT(&b, 1, 0, 0, 0, 0, 1, 0, 0, 0);
    PUT(&b, 0);
    PUT(&b, 4 * PAIRS);
    for (int i = 0; i < PAIRS; i++)
        PUT(&b, 8, 3 * i, 2, 0, 0, 8, 3 * i + 2, 1, 0, 0, 6, 3 * i, 3 * i + 1, 1, 0);
    for (int i = 1; i < PAIRS; i++)
        PUT(&b, 6, i == 1 ? 2 : 3 * PAIRS + i - 2, 3 * i + 2, 12, 0);
    PUT(&b, 1, 0, 0, 0, 0);
    PUT(&b, 2, 1, 4 * PAIRS - 1, 4 * PAIRS - 2, 0, 0, 0, 13, 0, 0, 0, 0, 0);
    PUT(&b, 3 * PAIRS);
    for (int i = 0; i < 3 * PAIRS; i++)
        PUT(&b, i % 3 == 1 ? 0 : 'a');
    return built_is(&b, JOYCE_ACCEPTED);
}

/* Every vector with a shut page right after it, and then right before it, in memory that may be read and not written. */
static bool fenced(bool at_end)
{
    for (size_t i = 0; i < count; i++) {
        struct table t = tables[i];
        if (t.length > ROOM)
            continue;
        uint8_t *place = at_end ? fence + ROOM - t.length : fence;
        if (!open_fence(PROT_READ | PROT_WRITE))
            return bad("mprotect");
        memcpy(place, t.bytes, t.length);
        if (!open_fence(PROT_READ))
            return bad("mprotect");
        uint32_t r = joyce_check(place, t.length);
        if (r != t.verdict)
            return bad("table %zu: the verdict is %u, not %u", i, r, t.verdict);
    }
    return true;
}

static bool before_shut_page(void)
{
    return fenced(true);
}

static bool after_shut_page(void)
{
    return fenced(false);
}

/* Every prefix of some accepted tables and of the largest, each with a shut page right after it. */
static bool prefixes_before_shut_page(void)
{
    for (size_t i = 0; i < accepts; i += i + 40 < accepts ? 40 : 1) {
        struct table t = tables[accepted[i]];
        for (size_t length = 1; length < t.length; length++) {
            uint8_t *place = fence + ROOM - length;
            if (!open_fence(PROT_READ | PROT_WRITE))
                return bad("mprotect");
            memcpy(place, t.bytes, length);
            if (!open_fence(PROT_READ))
                return bad("mprotect");
            uint32_t r = joyce_check(place, length);
            if (r != prefix_verdict(t, length))
                return bad("%zu of %zu bytes of table %zu: the verdict is %u", length, t.length, accepted[i], r);
        }
    }
    return true;
}

/* A pointer that may not be read at all, with length 0. */
static bool empty_at_shut_page(void)
{
    uint32_t r = joyce_check(fence + ROOM, 0);
    return r == JOYCE_ACCEPTED || bad("the verdict is %u", r);
}

static void *check_all(void *wrong)
{
    for (size_t i = 0; i < count; i++)
        if (joyce_check(tables[i].bytes, tables[i].length) != tables[i].verdict)
            ++*(size_t *)wrong;
    return NULL;
}

/* Four threads at once, on the same tables, each with a stack of 256 KiB. */
static bool threads(void)
{
    enum { THREADS = 4 };
    pthread_t thread[THREADS];
    size_t wrong[THREADS] = {0}, sum = 0;
    pthread_attr_t small;
    if (pthread_attr_init(&small) || pthread_attr_setstacksize(&small, 256 * 1024))
        return bad("pthread_attr_setstacksize");
    for (int i = 0; i < THREADS; i++)
        if (pthread_create(&thread[i], &small, check_all, &wrong[i]))
            return bad("pthread_create");
    for (int i = 0; i < THREADS; i++) {
        pthread_join(thread[i], NULL);
        sum += wrong[i];
    }
    pthread_attr_destroy(&small);
    return sum == 0 || bad("%zu verdicts differ", sum);
}

int main(int argc, char **argv)
{
    if (argc < 3 || !load(argv[1], true) || !load(argv[2], false)) {
        fprintf(stderr, "usage: check OLDER NEWER TABLE..\n");
        return 2;
    }
    for (int i = 3; i < argc; i++) {
        size_t length;
        const uint8_t *bytes = read_file(argv[i], &length);
        add(bytes, length, JOYCE_ACCEPTED);
    }
    if (!build_fence()) {
        fprintf(stderr, "cannot map memory\n");
        return 2;
    }
    main_thread = pthread_self();
    struct sigaction action = {.sa_handler = on_signal};
    int signals[] = {SIGSEGV, SIGBUS, SIGILL, SIGFPE, SIGALRM};
    for (size_t i = 0; i < sizeof signals / sizeof *signals; i++)
        sigaction(signals[i], &action, NULL);

    run("listing", listing_accepted);
    run("empty", empty_accepted);
    run("null", null_accepted);
    run("vectors", vectors_agree);
    run("files", files_accepted);
    run("prefixes", prefixes_refused);
    run("longer", longer_refused);
    run("too_long", too_long_refused);
    run("random_bytes", random_bytes);
    run("random_sections", random_sections);
    run("mutated", mutated_tables);
    run("doubling_records", doubling_records);
    run("nested_arrays", nested_arrays);
    run("thin_arrays", thin_arrays);
    run("nested_statements", nested_statements);
    run("deep_expression", deep_expression);
    run("doubling_sums", doubling_sums);
    run("longest_table", longest_table);
    run("longest_accepted", longest_accepted);
    run("longest_string", longest_string);
    run("many_strings", many_strings);
    run("before_shut_page", before_shut_page);
    run("after_shut_page", after_shut_page);
    run("prefixes_before_shut_page", prefixes_before_shut_page);
    run("empty_at_shut_page", empty_at_shut_page);
    run("threads", threads);
    return failures > 0;
}
