/* A plain scanner of Joyce texts in C: joyce_symbols of joyce.h, with nothing proved. */
#ifndef SCANNER_H
#define SCANNER_H

#include <stddef.h>
#include <stdint.h>

uint32_t plain_symbols(const uint8_t *text, size_t text_length, uint8_t *out, size_t out_length);

/* The same with 458,745 bytes of memory of its own, so that a text is scanned once; not for several threads. */
uint32_t plain_symbols_once(const uint8_t *text, size_t text_length, uint8_t *out, size_t out_length);

#endif
