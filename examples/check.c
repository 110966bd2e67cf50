/* Prints the verdict on the table that a file holds:
 *
 *     check FILE
 *
 * The exit status is 0 where the table is accepted, 1 where it is refused, 2 where the file cannot be read. */
#include "joyce.h"

#include <stdio.h>

static const char *reason(uint32_t verdict)
{
    switch (verdict) {
    case JOYCE_ACCEPTED: return "accepted";
    case JOYCE_SECTIONS: return "the sections end early, or bytes are left over";
    case JOYCE_KINDS: return "an unknown kind, mode or operator, or an unused field that is not 0";
    case JOYCE_NUMBERS: return "a number out of range, of the wrong sort or out of order";
    case JOYCE_USES: return "a node that is not used exactly once";
    case JOYCE_NESTING: return "statements that do not nest";
    case JOYCE_SIZES: return "a type or a module that is too large, or wrong bounds of an array";
    case JOYCE_SCOPES: return "a variable or a procedure out of scope";
    case JOYCE_TYPES: return "a wrong type, wrong arguments, or a constant or character outside its type";
    default: return "no verdict";
    }
}

int main(int argc, char **argv)
{
    /* One byte more than the longest table is kept, so that a longer file is refused. */
    static uint8_t table[JOYCE_TABLE_MAX + 1];
    if (argc != 2) {
        fprintf(stderr, "usage: check FILE\n");
        return 2;
    }
    FILE *file = fopen(argv[1], "rb");
    if (!file) {
        perror(argv[1]);
        return 2;
    }
    size_t length = fread(table, 1, sizeof table, file);
    if (ferror(file)) {
        perror(argv[1]);
        fclose(file);
        return 2;
    }
    fclose(file);
    uint32_t verdict = joyce_check(table, length);
    printf("verdict %u: %s\n", (unsigned)verdict, reason(verdict));
    return verdict == JOYCE_ACCEPTED ? 0 : 1;
}
