#include "tool.h"
#include "joyce.h"

#include <errno.h>
#include <stdarg.h>
#include <stdio.h>
#include <stdlib.h>
#include <string.h>

static void print_message(const char *format, va_list args)
{
    fflush(stdout); /* what was said before stands before it */
    fputs("joyce: ", stderr);
    vfprintf(stderr, format, args);
    fputc('\n', stderr);
}

void complain(const char *format, ...)
{
    va_list args;
    va_start(args, format);
    print_message(format, args);
    va_end(args);
}

void stop(const char *format, ...)
{
    va_list args;
    va_start(args, format);
    print_message(format, args);
    va_end(args);
    exit(UNUSABLE);
}

/* ---- files */

/* Reads until the file ends or the limit is reached; false where reading fails. */
static bool read_stream(FILE *file, const char *name, size_t limit, struct bytes *b)
{
    size_t room = 0, got;
    do {
        if (b->length == room) {
            room = 2 * room + 65536;
            b->at = realloc(b->at, room);
            if (!b->at)
                stop("%s: no memory", name);
        }
        size_t wanted = room - b->length;
        if (limit != NO_LIMIT && wanted > limit - b->length)
            wanted = limit - b->length;
        got = fread(b->at + b->length, 1, wanted, file);
        b->length += got;
    } while (got > 0);
    return !ferror(file);
}

bool try_read(const char *name, size_t limit, struct bytes *bytes)
{
    *bytes = (struct bytes){NULL, 0};
    FILE *file = fopen(name, "rb");
    if (!file) {
        complain("cannot open %s: %s", name, strerror(errno));
        return false;
    }
    bool is_read = read_stream(file, name, limit, bytes);
    if (!is_read) {
        complain("cannot read %s: %s", name, strerror(errno));
        free(bytes->at);
    }
    fclose(file);
    return is_read;
}

struct bytes read_file(const char *name, size_t limit)
{
    struct bytes bytes;
    if (!try_read(name, limit, &bytes))
        exit(UNUSABLE);
    return bytes;
}

struct bytes read_table_file(const char *name)
{
    return read_file(name, JOYCE_TABLE_MAX + 1);
}

void read_exactly(const char *name, uint8_t *bytes, size_t length, const char *what)
{
    struct bytes b = read_file(name, length + 1);
    if (b.length > length)
        stop("%s: %s has %zu bytes, this file more", name, what, length);
    if (b.length < length)
        stop("%s: %s has %zu bytes, this file %zu", name, what, length, b.length);
    memcpy(bytes, b.at, length);
    free(b.at);
}

void test_writable(const char *name)
{
    FILE *file = fopen(name, "ab");
    if (!file || fclose(file) != 0)
        stop("cannot write %s: %s", name, strerror(errno));
}

void write_file(const char *name, const uint8_t *bytes, size_t length)
{
    FILE *file = fopen(name, "wb");
    if (!file)
        stop("cannot write %s: %s", name, strerror(errno));
    bool is_written = fwrite(bytes, 1, length, file) == length;
    if (fclose(file) != 0 || !is_written)
        stop("cannot write %s: %s", name, strerror(errno));
}

/* ---- options */

uint64_t read_number(const char *text, const char *what, uint64_t limit)
{
    char *end;
    errno = 0;
    unsigned long long number = strtoull(text, &end, 10);
    if (*text < '0' || *text > '9' || *end || errno || number > limit)
        stop("%s is no number of %s, 0..%llu", text, what, (unsigned long long)limit);
    return number;
}

/* A negative number is no option. */
static bool is_option(const char *word)
{
    return word[0] == '-' && word[1] && !(word[1] >= '0' && word[1] <= '9');
}

/* Takes one option. Its value, where it has one, follows = or is the next word; true where it is the next word. */
static bool take_option(const char *command, const char *word, const char *next, const struct option *options, size_t option_count)
{
    size_t length = strcspn(word, "=");
    const char *value = word[length] == '=' ? word + length + 1 : next;
    for (size_t i = 0; i < option_count; i++) {
        const struct option *o = &options[i];
        if (strlen(o->name) != length || strncmp(o->name, word, length) != 0)
            continue;
        if (o->flag) {
            if (word[length] == '=')
                stop("%s: %s has no value", command, o->name);
            *o->flag = true;
            return false;
        }
        if (!value)
            stop("%s: %s lacks its value", command, o->name);
        if (o->text)
            *o->text = value;
        else
            *o->number = read_number(value, o->name, o->limit);
        return value == next;
    }
    stop("%s: %s is unknown; see joyce %s --help", command, word, command);
    return false;
}

int take_options(const char *command, int count, char **words, const struct option *options, size_t option_count)
{
    int others = 0, i = 0;
    for (; i < count && strcmp(words[i], "--") != 0; i++) {
        if (strcmp(words[i], "--help") == 0 || strcmp(words[i], "-h") == 0) {
            print_usage();
            exit(DONE);
        }
        if (!is_option(words[i]))
            words[others++] = words[i];
        else if (take_option(command, words[i], i + 1 < count ? words[i + 1] : NULL, options, option_count))
            i++;
    }
    for (i++; i < count; i++)
        words[others++] = words[i];
    return others;
}
