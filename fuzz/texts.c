/* A short run of the fuzz target of texts, the same each time: outside texts with some bytes changed, by a fixed pseudo-random sequence.
 *
 *     texts VECTORS ROUNDS          tries so many inputs
 *     texts VECTORS ROUNDS FOLDER   writes them there instead, as a first corpus for a fuzzer
 *
 * VECTORS is tests/symbols/symbols.bin; tests/symbols/symbols.c has the form of a record. */
#include <stdint.h>
#include <stdio.h>
#include <stdlib.h>
#include <string.h>

int LLVMFuzzerTestOneInput(const uint8_t *data, size_t size);

enum { TEXTS_MAX = 4096, LENGTH_MAX = 4096, INPUT_MAX = 1 + LENGTH_MAX + 64 };

static const uint8_t *texts[TEXTS_MAX];
static size_t lengths[TEXTS_MAX], text_count;
static uint64_t seed = 1979;

static uint32_t below(uint32_t limit)
{
    seed ^= seed >> 12;
    seed ^= seed << 25;
    seed ^= seed >> 27;
    return (uint32_t)((seed * 0x2545F4914F6CDD1Du) >> 33) % limit;
}

static size_t long_at(const uint8_t *p)
{
    return p[0] + 256u * p[1] + 65536u * p[2] + 16777216u * p[3];
}

/* The texts of the vectors, the longest left out. */
static void load(const char *name)
{
    FILE *file = fopen(name, "rb");
    static uint8_t all[1 << 23];
    size_t length = file ? fread(all, 1, sizeof all, file) : 0, at = 0;
    while (at + 13 <= length && text_count < TEXTS_MAX) {
        size_t size = long_at(all + at);
        const uint8_t *text = all + at + 4;
        if (size > length - at - 13)
            break;
        at += 4 + size + 4;
        at += 1u + all[at];
        size_t result = long_at(all + at);
        at += 4 + (result >= 65536 ? 7 * (result - 65536) : 0);
        if (size > LENGTH_MAX)
            continue;
        texts[text_count] = text;
        lengths[text_count++] = size;
    }
    if (!file || text_count == 0) {
        fprintf(stderr, "texts: cannot read %s\n", name);
        exit(2);
    }
    fclose(file);
}

/* Every second has bytes changed, put in or taken out; a part of one is as good as a whole. */
static size_t put_input(uint8_t *input)
{
    static const uint8_t telling[] = "'\"@# \n<>=:.;7aZ\t_\377";
    size_t i = below((uint32_t)text_count), length = lengths[i];
    uint8_t *text = input + 1;
    input[0] = (uint8_t)below(256);
    memcpy(text, texts[i], length);
    if (below(4) == 0 && length > 0)
        length = below((uint32_t)length);
    for (uint32_t changes = below(2) * below(5); changes > 0 && length > 0; changes--) {
        size_t at = below((uint32_t)length);
        uint8_t byte = telling[below(sizeof telling - 1)];
        if (below(3) == 0) {
            memmove(text + at, text + at + 1, --length - at);
        } else {
            if (below(2))
                memmove(text + at + 1, text + at, length++ - at);
            text[at] = byte;
        }
    }
    return 1 + length;
}

static void write_input(const char *folder, long round, const uint8_t *input, size_t length)
{
    char name[4096];
    snprintf(name, sizeof name, "%s/%06ld", folder, round);
    FILE *file = fopen(name, "wb");
    if (!file || fwrite(input, 1, length, file) != length || fclose(file) != 0) {
        perror(name);
        exit(2);
    }
}

int main(int argc, char **argv)
{
    static uint8_t input[INPUT_MAX];
    long rounds = argc == 3 || argc == 4 ? strtol(argv[2], NULL, 10) : 0;
    if (rounds <= 0) {
        fprintf(stderr, "usage: texts VECTORS ROUNDS [FOLDER]\n");
        return 2;
    }
    load(argv[1]);
    for (long round = 0; round < rounds; round++) {
        size_t length = put_input(input);
        if (argc == 4)
            write_input(argv[3], round, input, length);
        else
            LLVMFuzzerTestOneInput(input, length);
    }
    printf("%ld inputs\n", rounds);
    return 0;
}
