/* A plain checker and interpreter in C, with nothing proved: what the benchmarks compare with, and a second opinion for the tests. Written
 * from the rules of tables, steps and states and not from the library. The calls, their refusals and the layout of the state are those of
 * joyce.h and docs/STATE.md. */
#ifndef PLAIN_H
#define PLAIN_H

#include <stddef.h>
#include <stdint.h>

uint32_t plain_check(const uint8_t *table, size_t length);

uint32_t plain_begin(const uint8_t *table, size_t table_length, uint8_t *state, size_t state_length, uint32_t number);

uint32_t plain_run(const uint8_t *table, size_t table_length, uint8_t *state, size_t state_length, uint8_t *page, size_t page_length,
                   const uint8_t *schedule, size_t schedule_length, uint8_t *answers, size_t answers_length);

uint32_t plain_look(const uint8_t *table, size_t table_length, const uint8_t *state, size_t state_length, uint32_t process, uint32_t variable,
                    uint32_t place);

#endif
