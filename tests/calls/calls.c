/* Tests of the four calls that take tables, as a C program meets them. A line 'ok calls/NAME' or 'FAIL calls/NAME: why' a test.
 *
 *     calls VERDICTS
 *
 * VERDICTS holds outside vectors: tables with their verdicts. */
#include "support.h"
#include "tests.h"

#include <stdio.h>

int main(int argc, char **argv)
{
    if (argc != 2) {
        fprintf(stderr, "usage: calls VERDICTS\n");
        return 2;
    }
    load_tables(argv[1]);
    open_rooms();
    refusal_tests();
    answer_tests();
    empty_tests();
    edge_tests();
    state_tests();
    forged_tests();
    unset_tests();
    string_tests();
    space_tests();
    story_tests();
    return failures > 0;
}
