/* The explanations of refused tables, held to outside verdicts and to the library's:
 *
 *     explain [--show] [--older VERDICTS] VERDICTS.. -- TABLE..
 *
 * of the files of verdicts, every table, of the older ones by the library's verdict, for string constants have changed some; of the tables, which
 * are accepted, every one with one byte changed, to each of some values. --show also shows each. */
#include "explain.h"
#include "joyce.h"
#include "show.h"

#include <stdbool.h>
#include <stdio.h>
#include <stdlib.h>
#include <string.h>

static FILE *nowhere; /* what is shown goes there: the sanitizers watch */
static int failures;
static long by_verdict[16];

static void report(const char *name, const char *file, long count, bool is_ok)
{
    const char *base = strrchr(file, '/');
    printf("%s explain/%s: %ld of %s\n", is_ok ? "ok" : "FAIL", name, count, base ? base + 1 : file);
    failures += !is_ok;
}

static uint8_t *read_all(const char *name, size_t *length)
{
    FILE *file = fopen(name, "rb");
    if (!file || fseek(file, 0, SEEK_END) != 0)
        return NULL;
    *length = (size_t)ftell(file);
    rewind(file);
    uint8_t *bytes = malloc(*length + 1);
    if (bytes && fread(bytes, 1, *length, file) != *length) {
        free(bytes);
        bytes = NULL;
    }
    fclose(file);
    return bytes;
}

/* Any table with sections can be shown. */
static void show(const uint8_t *table, size_t length, const struct fault *fault)
{
    struct table sections;
    int broken;
    struct text text = {&sections, NULL, nowhere, 0};
    if (!read_sections(&sections, table, length, &broken))
        return;
    show_entries(&text, fault);
    show_place(&text, fault);
    if (fault->verdict == 0)
        show_program(&text);
}

/* The number is the verdict's; and a refused table has a place, with what stands there, and a reason. */
static bool is_explained(const uint8_t *bytes, size_t length, uint32_t verdict)
{
    struct fault fault;
    uint8_t *table = malloc(length ? length : 1); /* of its own, so that the sanitizers see its ends */
    if (!table)
        return false;
    memcpy(table, bytes, length);
    explain(table, length, &fault);
    bool is_right = fault.verdict == verdict;
    if (verdict != 0)
        is_right &= fault.why[0] && fault.there[0] && (fault.byte < length || (verdict == 2 && fault.byte == length));
    if (is_right && verdict != 0 && fault.field != NOWHERE) {
        int byte = table[fault.byte], number = atoi(fault.there);
        is_right = number == byte || (number & 0xffff) == byte + 256 * table[fault.byte + 1];
    }
    if (!is_right)
        printf("    verdict %u, explained as %u: %s\n", (unsigned)verdict, (unsigned)fault.verdict, fault.why);
    by_verdict[verdict & 15]++;
    if (is_right && nowhere)
        show(table, length, &fault);
    free(table);
    return is_right;
}

static void test_verdicts(const char *name, bool is_older)
{
    size_t length, at = 0;
    long count = 0;
    uint8_t *bytes = read_all(name, &length);
    bool is_ok = bytes != NULL;
    while (is_ok && at + 2 < length) {
        size_t size = bytes[at] + 256u * bytes[at + 1];
        is_ok = at + 2 + size < length &&
                is_explained(bytes + at + 2, size, is_older ? joyce_check(bytes + at + 2, size) : bytes[at + 2 + size]);
        at += 3 + size;
        count++;
    }
    report("verdicts", name, count, is_ok && count > 0);
    free(bytes);
}

/* One byte changed: the library says what the number is. */
static void test_changed(const char *name)
{
    static const uint8_t changes[] = {1, 2, 3, 5, 7, 64, 128, 255};
    size_t length;
    long count = 0;
    uint8_t *bytes = read_all(name, &length);
    bool is_ok = bytes && is_explained(bytes, length, JOYCE_ACCEPTED);
    for (size_t i = 0; is_ok && i < length; i++)
        for (size_t k = 0; is_ok && k < sizeof changes; k++, count++) {
            bytes[i] = (uint8_t)(bytes[i] + changes[k]);
            is_ok = is_explained(bytes, length, joyce_check(bytes, length));
            bytes[i] = (uint8_t)(bytes[i] - changes[k]);
        }
    for (size_t i = 0; is_ok && i < length; i++, count++)
        is_ok = is_explained(bytes, i, joyce_check(bytes, i));
    report("changed", name, count, is_ok);
    free(bytes);
}

int main(int argc, char **argv)
{
    int i = 1;
    if (argc > 1 && strcmp(argv[1], "--show") == 0) {
        nowhere = fopen("/dev/null", "w");
        i = 2;
    }
    if (i + 1 < argc && strcmp(argv[i], "--older") == 0) {
        test_verdicts(argv[i + 1], true);
        i += 2;
    }
    for (; i < argc && strcmp(argv[i], "--") != 0; i++)
        test_verdicts(argv[i], false);
    for (i++; i < argc; i++)
        test_changed(argv[i]);
    for (int verdict = 2; verdict <= 9; verdict++)
        if (by_verdict[verdict] == 0) {
            printf("FAIL explain/all_numbers: no table is refused with %d\n", verdict);
            failures++;
        }
    if (nowhere)
        fclose(nowhere);
    return failures > 0;
}
