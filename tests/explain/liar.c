/* A library that refuses everything with the number REFUSAL, 4 if none is given: the tool must notice that its own explanation, of a table or a text,
 * is another. Where REFUSAL is 0 all steps answer ANSWER. */
#include "joyce.h"

#include <string.h>

#ifndef REFUSAL
#define REFUSAL JOYCE_NUMBERS
#endif
#ifndef ANSWER
#define ANSWER JOYCE_DONE
#endif

uint32_t joyce_check(const uint8_t *table, size_t table_len)
{
    (void)table, (void)table_len;
    return REFUSAL;
}

uint32_t joyce_begin(const uint8_t *table, size_t table_len, uint8_t *state, size_t state_len, uint32_t number)
{
    (void)state, (void)state_len, (void)number;
    return joyce_check(table, table_len);
}

uint32_t joyce_run(const uint8_t *table, size_t table_len, uint8_t *state, size_t state_len, uint8_t *page, size_t page_len, const uint8_t *schedule,
                   size_t schedule_len, uint8_t *answers, size_t answers_len)
{
    (void)state, (void)state_len, (void)page, (void)page_len, (void)schedule, (void)answers_len;
    memset(answers, ANSWER, REFUSAL == 0 ? schedule_len : 0);
    return joyce_check(table, table_len);
}

uint32_t joyce_look(const uint8_t *table, size_t table_len, const uint8_t *state, size_t state_len, uint32_t process, uint32_t variable,
                    uint32_t place)
{
    (void)state, (void)state_len, (void)process, (void)variable, (void)place;
    return joyce_check(table, table_len);
}

uint32_t joyce_symbols(const uint8_t *text, size_t text_len, uint8_t *out, size_t out_len)
{
    (void)out, (void)out_len;
    return joyce_check(text, text_len);
}
