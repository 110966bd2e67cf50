#include "joyce.h"
#include <stdio.h>

#include "state_page.h"

/* The example of docs/STATE.md, at the place that the page shows. */
int main(void)
{
    static const uint8_t table[] = {
        1, 3, 1, 0, 0, 0, 0, 0, 0, 4, 0, 3, 0, 0, 0, 0, 2, 0, 3, 0, 0, 0, 0, 2, 0, 0, 0, 1, 1, 2, 0, 1, 5, 0, 0, 2, 1, 3, 1, 1,
        7, 0, 0, 1, 6, 14, 1, 1, 0, 0, 0, 0, 0, 0, 2, 0, 1, 0, 0, 0, 0, 1, 0, 0, 0, 0, 1, 0, 0, 0, 0, 0, 0, 0, 5, 0, 1, 1, 0, 0,
        0, 1, 2, 0, 0, 0, 1, 3, 0, 0, 0, 1, 2, 0, 0, 0, 4, 9, 0, 0, 0, 1, 3, 0, 0, 0, 4, 11, 0, 0, 0, 6, 10, 12, 7, 0, 9, 1, 0, 1,
        0, 0, 0, 4, 2, 0, 0, 0, 0, 5, 3, 0, 0, 0, 0, 3, 4, 2, 0, 1, 0, 13, 0, 0, 0, 0, 0, 1, 7, 5, 0, 0, 0, 13, 1, 0, 0, 0, 0, 1,
        8, 13, 0, 0, 0, 13, 2, 0, 0, 0, 0};
    static const uint8_t schedule[] = {1, 1, 1, 2, 2, 1};
    static const struct {
        unsigned first, count, words[11];
    } shown[] = {{0, 7, {2, 2, 0, 3, 1, 2, 1}},
                 {256, 1, {5}},
                 {16384, 11, {2, 0, 7, 2, 7, 2, 1, 1, 2, 0, 0}},
                 {16404, 8, {3, 1, 6, 0, 1, 2, 1, 0}},
                 {17664, 1, {127}},
                 {17680, 1, {1}}};
    static uint8_t state[JOYCE_STATE_SIZE], page[JOYCE_PAGE_SIZE], answers[6];
    if (joyce_begin(table, sizeof table, state, sizeof state, JOYCE_START_UNSET) != JOYCE_OK ||
        joyce_run(table, sizeof table, state, sizeof state, page, sizeof page, schedule, 6, answers, 6) != JOYCE_OK)
        return 1;
    for (unsigned i = 0; i < sizeof shown / sizeof *shown; i++)
        for (unsigned k = 0; k < shown[i].count; k++)
            if (word(state, shown[i].first + k) != shown[i].words[k])
                printf("word %u is %u, not %u\n", shown[i].first + k, word(state, shown[i].first + k), shown[i].words[k]);
    for (unsigned i = 17664; i < 18688; i++)
        if (i != 17664 && i != 17680 && word(state, i) != 0)
            printf("word %u is not 0\n", i);
    if (!has_value(state, 0, 7) || has_value(state, 0, 8) || !has_value(state, 256, 1) || has_value(state, 257, 1))
        printf("values\n");
    calls(state, 1);
    return 0;
}
