/* A short run of the fuzz target, the same each time: inputs made from outside vectors by a fixed pseudo-random sequence.
 *
 *     short VERDICTS ROUNDS          tries so many inputs
 *     short VERDICTS ROUNDS FOLDER   writes them there instead, as a first corpus for a fuzzer
 *     short VERDICTS ROUNDS --mutate tries what fuzz/mutator.c makes of them, and of what it has made: a small fuzzer without coverage */
#include <stdint.h>
#include <stdio.h>
#include <stdlib.h>
#include <string.h>

int LLVMFuzzerTestOneInput(const uint8_t *data, size_t size);
size_t LLVMFuzzerCustomMutator(uint8_t *data, size_t size, size_t max_size, unsigned int seed);
size_t LLVMFuzzerCustomCrossOver(const uint8_t *one, size_t one_size, const uint8_t *two, size_t two_size, uint8_t *out, size_t max_size,
                                 unsigned int seed);

enum { TABLES_MAX = 65536, INPUT_MAX = 65536 + 1024, POOL = 200, MUTATED_MAX = 8192 };

static const uint8_t *tables[TABLES_MAX];
static size_t lengths[TABLES_MAX], accepted[TABLES_MAX], table_count, accepted_count;
static uint64_t seed = 1979;

static uint32_t below(uint32_t limit)
{
    seed ^= seed >> 12;
    seed ^= seed << 25;
    seed ^= seed >> 27;
    return (uint32_t)((seed * 0x2545F4914F6CDD1Du) >> 33) % limit;
}

/* The vectors: records of a word L, L bytes of table, one byte of verdict. */
static void load(const char *name)
{
    FILE *file = fopen(name, "rb");
    static uint8_t all[1 << 24];
    size_t length = file ? fread(all, 1, sizeof all, file) : 0, size;
    for (size_t at = 0; at + 2 < length && table_count < TABLES_MAX; at += 3 + size) {
        size = all[at] + 256u * all[at + 1];
        if (at + 2 + size >= length)
            break;
        if (all[at + 2 + size] == 0)
            accepted[accepted_count++] = table_count;
        tables[table_count] = all + at + 2;
        lengths[table_count++] = size;
    }
    if (!file || accepted_count == 0) {
        fprintf(stderr, "short: cannot read %s\n", name);
        exit(2);
    }
    fclose(file);
}

/* Where damage tells most: the control records of the first processes, the beginning of their areas, and marks. */
static uint32_t telling_place(void)
{
    uint32_t process = below(below(3) ? 5 : 64);
    switch (below(5)) {
    case 0: return 35328 + 32 * process + below(below(2) ? 4 : 32); /* marks */
    case 1:
    case 2: return 32768 + 40 * process + below(22);
    default: return 512 * process + below(below(2) ? 24 : 512);
    }
}

static size_t put_head(uint8_t *input)
{
    size_t at = 0;
    uint32_t damages = below(3) ? 0 : 1 + below(4), repeated = below(4) ? 0 : 128, turns = below(repeated ? 2 : 8) ? below(64) : below(256);
    input[at++] = (uint8_t)((below(8) ? 0 : below(8)) | (below(3) ? 0 : 8) | (below(4) ? 16 : 0) | (below(4) ? 0 : 32) | (below(2) ? 64 : 0) |
                            repeated);
    input[at++] = (uint8_t)damages;
    for (uint32_t i = 0; i < damages; i++) {
        uint32_t place = telling_place();
        input[at++] = (uint8_t)place;
        input[at++] = (uint8_t)(place >> 8);
        input[at++] = (uint8_t)(below(4) ? 1u << below(8) : below(256));
    }
    input[at++] = (uint8_t)turns;
    for (uint32_t i = 0; i < turns; i++)
        input[at++] = (uint8_t)(below(20) ? 1 + below(5) : below(256));
    input[at++] = (uint8_t)(below(10) ? 1 + below(3) : below(256));
    input[at++] = (uint8_t)(below(10) ? below(6) : below(256));
    input[at++] = (uint8_t)(below(2) ? 0 : below(below(2) ? 6 : 256));
    return at;
}

/* A table: two of three are accepted ones, and every second has some bytes changed, is cut, or has a byte too many. */
static size_t put_table(uint8_t *bytes)
{
    size_t i = below(3) ? accepted[below((uint32_t)accepted_count)] : below((uint32_t)table_count), length = lengths[i];
    memcpy(bytes, tables[i], length);
    if (length == 0 || below(2))
        return length;
    for (uint32_t changes = below(3); changes > 0; changes--) {
        uint8_t *byte = &bytes[below((uint32_t)length)];
        *byte = (uint8_t)(below(3) ? *byte + below(3) - 1 : below(256));
    }
    if (below(8) == 0)
        length = below((uint32_t)length);
    if (below(8) == 0)
        bytes[length++] = (uint8_t)below(256);
    return length;
}

static void write_input(const char *folder, long round, const uint8_t *input, size_t length)
{
    char name[4096];
    snprintf(name, sizeof name, "%s/%06ld", folder, round);
    FILE *file = fopen(name, "wb");
    if (!file || fwrite(input, 1, length, file) != length || fclose(file) != 0) {
        perror(name);
        exit(2);
    }
}

/* A pool of inputs. Each round changes one, tries it, and mostly puts it back. */
static void mutate(long rounds)
{
    static uint8_t pool[POOL][INPUT_MAX], input[INPUT_MAX], crossed[INPUT_MAX];
    static size_t sizes[POOL];
    for (int i = 0; i < POOL; i++) {
        do {
            sizes[i] = put_head(pool[i]);
            sizes[i] += put_table(pool[i] + sizes[i]);
        } while (sizes[i] > MUTATED_MAX);
    }
    for (long round = 0; round < rounds; round++) {
        uint32_t i = below(POOL), other = below(POOL);
        size_t size = sizes[i];
        memcpy(input, pool[i], size);
        if (below(20) == 0 && (size = LLVMFuzzerCustomCrossOver(pool[i], sizes[i], pool[other], sizes[other], crossed, MUTATED_MAX, below(1000))) > 0)
            memcpy(input, crossed, size);
        size = LLVMFuzzerCustomMutator(input, size ? size : sizes[i], MUTATED_MAX, below(1u << 30));
        LLVMFuzzerTestOneInput(input, size);
        if (below(4)) {
            memcpy(pool[i], input, size);
            sizes[i] = size;
        }
    }
    printf("%ld inputs\n", rounds);
}

int main(int argc, char **argv)
{
    static uint8_t input[INPUT_MAX];
    long rounds = argc == 3 || argc == 4 ? strtol(argv[2], NULL, 10) : 0;
    if (rounds <= 0) {
        fprintf(stderr, "usage: short VERDICTS ROUNDS [FOLDER | --mutate]\n");
        return 2;
    }
    load(argv[1]);
    if (argc == 4 && strcmp(argv[3], "--mutate") == 0) {
        mutate(rounds);
        return 0;
    }
    for (long round = 0; round < rounds; round++) {
        size_t length = put_head(input);
        length += put_table(input + length);
        if (argc == 4)
            write_input(argv[3], round, input, length);
        else
            LLVMFuzzerTestOneInput(input, length);
    }
    printf("%ld inputs\n", rounds);
    return 0;
}
