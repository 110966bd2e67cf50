#include "labels.h"
#include "joyce.h"
#include "tool.h"

#include <stdio.h>
#include <stdlib.h>
#include <string.h>

enum { NUMBERS = 4096, NAME_MAX_LENGTH = 40, FILE_MAX = 1 << 20 };

static const struct {
    const char *word;
    int low, high;
} kinds[LABEL_KINDS] = {
    {"block", 0, 254}, {"variable", 0, 254}, {"type", 3, 257}, {"field", 0, 254}, {"device", JOYCE_ADDRESS_MIN, JOYCE_ADDRESS_MAX}};

struct labels {
    char names[LABEL_KINDS][NUMBERS][NAME_MAX_LENGTH + 1];
};

static int index_of(enum label_kind kind, int number)
{
    return kind == DEVICE_LABEL ? (number - JOYCE_ADDRESS_MIN) / 2 : number;
}

const char *label_of(const struct labels *labels, enum label_kind kind, int number)
{
    if (!labels || number < kinds[kind].low || number > kinds[kind].high || (kind == DEVICE_LABEL && number % 2 != 0))
        return NULL;
    const char *name = labels->names[kind][index_of(kind, number)];
    return *name ? name : NULL;
}

static bool is_name(const char *text)
{
    static const char letters[] = "ABCDEFGHIJKLMNOPQRSTUVWXYZabcdefghijklmnopqrstuvwxyz", more[] = "0123456789_";
    if (!strchr(letters, *text) || strlen(text) > NAME_MAX_LENGTH)
        return false;
    while (*text && (strchr(letters, *text) || strchr(more, *text)))
        text++;
    return *text == 0;
}

/* A line: a kind, a number, a name. */
static void read_line(struct labels *labels, const char *file, int line, char *text)
{
    char word[16], name[64], rest[2];
    int number, kind = 0, found = sscanf(text, "%15s %d %63s %1s", word, &number, name, rest);
    if (found < 1 || word[0] == '#')
        return;
    if (found != 3)
        stop("%s:%d: a kind, a number and a name are needed", file, line);
    while (kind < LABEL_KINDS && strcmp(kinds[kind].word, word) != 0)
        kind++;
    if (kind == LABEL_KINDS)
        stop("%s:%d: %s is none of block, variable, type, field, device", file, line, word);
    if (number < kinds[kind].low || number > kinds[kind].high || (kind == DEVICE_LABEL && number % 2 != 0))
        stop("%s:%d: %d is no number of a %s, %d..%d%s", file, line, number, word, kinds[kind].low, kinds[kind].high,
             kind == DEVICE_LABEL ? ", even" : "");
    if (!is_name(name))
        stop("%s:%d: %s is no name: a letter, then letters, digits and _, at most %d", file, line, name, NAME_MAX_LENGTH);
    if (label_of(labels, (enum label_kind)kind, number))
        stop("%s:%d: %s %d has a name already", file, line, word, number);
    strcpy(labels->names[kind][index_of((enum label_kind)kind, number)], name);
}

struct labels *labels_read(const char *file)
{
    struct bytes bytes = read_file(file, FILE_MAX);
    struct labels *labels = calloc(1, sizeof *labels);
    char *text = malloc(bytes.length + 1);
    int line = 1;
    if (!labels || !text)
        stop("%s: no memory", file);
    memcpy(text, bytes.at, bytes.length);
    text[bytes.length] = 0;
    if (strlen(text) != bytes.length)
        stop("%s: it holds a byte 0, and is no text", file);
    for (char *at = text, *end; at; at = end ? end + 1 : NULL, line++) {
        end = strchr(at, '\n');
        if (end)
            *end = 0;
        read_line(labels, file, line, at);
    }
    free(text);
    free(bytes.at);
    return labels;
}

struct labels *labels_beside(const char *table)
{
    const char *slash = strrchr(table, '/'), *dot = strrchr(table, '.');
    size_t length = dot && dot != table && (!slash || dot > slash + 1) ? (size_t)(dot - table) : strlen(table);
    char *name = malloc(length + sizeof ".names");
    struct labels *labels = NULL;
    if (!name)
        stop("%s: no memory", table);
    memcpy(name, table, length);
    strcpy(name + length, ".names");
    FILE *file = strcmp(name, table) == 0 ? NULL : fopen(name, "rb");
    if (file) {
        fclose(file);
        labels = labels_read(name);
    }
    free(name);
    return labels;
}

void labels_free(struct labels *labels)
{
    free(labels);
}
