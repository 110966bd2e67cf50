/* table.h: the sections of any bytes, their entries and fields. See joyce.h. */
#ifndef TABLE_H
#define TABLE_H

#include <stdbool.h>
#include <stddef.h>
#include <stdint.h>

enum section { TYPES, FIELDS, VARIABLES, BLOCKS, ARGUMENTS, NODES, STATEMENTS, CHARACTERS, SECTIONS };

/* the fields of an entry, in order */
enum { T_KIND, T_P, T_Q, T_LOW, T_HIGH };
enum { F_TYPE };
enum { V_MODE, V_TYPE };
enum { B_KIND, B_OWNER, B_FIRST, B_PARAMETERS, B_VARIABLES, B_STATEMENT, B_SPACE };
enum { A_NODE };
enum { N_KIND, N_P, N_Q, N_V };
enum { S_KIND, S_A, S_B, S_C, S_D, S_LINK };
enum { C_CHARACTER };

/* kinds, modes, operators, and the standard types */
enum { INTEGER, BOOLEAN, CHARACTER, DECLARED };
enum { RECORD = 1, ARRAY, PROCESS };
enum { LOCAL, VALUE_PARAMETER, VAR_PARAMETER };
enum { PROGRAM, MODULE, PROCEDURE };
enum { CONSTANT, WHOLE, FIELD, ELEMENT, VALUE, UNARY, BINARY, TRANSFER, STRING };
enum { MINUS = 1, NOT, VAL };
enum { EQUAL = 1, UNEQUAL, LESS, NOT_GREATER, GREATER, NOT_LESS, PLUS, DIFFERENCE, TIMES, DIVIDE, MOD, AND, OR };
enum { SKIP, ASSIGN, CALL, PROCESS_CALL, CREATE, START, IF, WHILE, WHEN, CYCLE, ARM, END, WRITE, BLOCK_END };

struct table {
    const uint8_t *bytes;
    size_t length;
    int count[SECTIONS];
    size_t first[SECTIONS]; /* the byte of the section's first entry */
    bool has_characters;    /* the last section is there; else its count is 0 */
};

/* Finds the sections. True where all are there, the characters apart, and nothing is left over; else *broken is the section that is cut, or
 * SECTIONS where bytes are left over. Zero bytes are read as the program of an empty cartridge slot. */
bool read_sections(struct table *t, const uint8_t *bytes, size_t length, int *broken);

bool has_entry(const struct table *t, int section, int entry);

/* What stands in a field: a byte, or a word as an integer. The entry is there. */
int get(const struct table *t, int section, int entry, int field);

/* The byte at which an entry or a field stands. */
size_t place_of(const struct table *t, int section, int entry, int field);

int entry_size(int section);
int field_count(int section);
const char *section_name(int section);
const char *field_name(int section, int field);

/* the words for a kind of an entry, or a mode; null where it is unknown */
const char *kind_name(int section, int kind);

bool is_variable_kind(int node_kind);
bool is_opener(int statement_kind);

#endif
