/* joyce.h: the C interface of the checker and stepper of Joyce program tables, and of the splitter of Joyce texts. This page is the manual of the
 * calls, and has a name for every number that a table holds; docs/LANGUAGE.md is the guide to tables, and docs/TEXT.md that to texts, with examples.
 *
 * A host lends bytes, calls, and gets a number back. There are five calls:
 *
 *     joyce_check     is this table a program?
 *     joyce_begin     a state in which the program stands at its beginning
 *     joyce_run       steps, one for each process number of a schedule
 *     joyce_look      one word of one variable
 *     joyce_symbols   the symbols of a text: what they are and where they stand
 *
 *     static uint8_t state[JOYCE_STATE_SIZE], page[JOYCE_PAGE_SIZE];
 *     uint8_t turns[3] = {1, 2, 1}, answers[3];
 *
 *     if (joyce_begin(table, length, state, sizeof state, JOYCE_START_UNSET) == JOYCE_OK &&
 *         joyce_run(table, length, state, sizeof state, page, sizeof page, turns, 3, answers, 3) == JOYCE_OK)
 *         printf("the first step answered %u\n", answers[0]);
 *
 * Link with libjoyce.a. It needs the functions memcpy, memmove, memset and memcmp at most, and nothing else of a C library. It is code for
 * Linux on x86-64: the kit that proves and compiles it writes no other.
 *
 * ---- What holds for every call
 *
 * Any input. Any bytes of any lengths, and any numbers, have a result: each call returns, for every input, one of the numbers that its
 * comment lists. It needs no test before it.
 *
 * Refusals. A result of 1..11, 25 or 32 is a refusal, and a refusal changes no lent byte. The lowest number that applies is returned: lengths and
 * the number of joyce_begin come first, then the table, then the state, then what is looked at; or the text. All calls that take a table give it
 * the same verdict: begin, run and look refuse it with the number of joyce_check.
 *
 * Pointers. A slice is a pointer and a number of bytes. The pointer may be null only where the number is 0; else it is the first of as many
 * bytes, and needs no alignment. Slices to const are read and not written. A call reads and writes no other byte of the caller's, and keeps no
 * pointer when it returns.
 *
 * Sharing. A slice that a call writes (the state in joyce_begin; state, page and answers in joyce_run; out in joyce_symbols) may not overlap
 * another slice of the same call. Slices that are only read may: table and schedule, say.
 *
 * Threads. The library has no variables: all that a run is stands in its state. Calls may be made from any threads at the same time, as long as
 * nobody writes a slice that another call uses meanwhile. So threads may share one table, and each needs a state, a page and answers of its own. A
 * call allocates nothing and needs less than 256 KiB of stack.
 *
 * States are bytes. A state may be copied, stored, compared and put back at any time. With the same table, and the same device words, equal
 * states behave alike, wherever the schedule is cut into calls, if nobody changes the page between them.
 *
 * States across versions. Within one JOYCE_VERSION_MAJOR, a state that one release left is read by all others that accept its table, and
 * means the same. A new major number may refuse it, with JOYCE_LENGTH or JOYCE_STATE, and will say so here. Keep the number with what you store.
 * 2.2 reads the states of 2.0 and 2.1, but a run that goes on from one may fail with JOYCE_AREA where it did not: see Space, and docs/ADOPT.md.
 * Version 2 refuses the states of version 1, which had 35,328 bytes, with JOYCE_LENGTH; docs/ADOPT.md has how to carry them over.
 *
 * ---- Tables
 *
 * A program table holds a program of Joyce (P. Brinch Hansen, Joyce, a language for computer networks, November 1979) as numbers: seven or
 * eight sections, each a one-byte count and then as many entries. The sections in order, with their fields; a field has one byte but low,
 * high, space and v, which are words of two bytes, low byte first:
 *
 *     types       kind, p, q, low, high
 *     fields      type
 *     variables   mode, type
 *     blocks      kind, owner, first variable, parameters, variables, first statement, space
 *     arguments   node
 *     nodes       kind, p, q, v
 *     statements  kind, a, b, c, d, link
 *     characters  character, 0..127
 *
 * The eighth section holds the characters of string constants. A table may end after the statements, and then has none; a count of 0 says the same.
 *
 * Zero bytes are a table too, an empty cartridge slot: every call that takes a table reads them, from any pointer, as the program that skips and
 * ends.
 *
 * Entries are numbered from 0 in each section, types from JOYCE_DECLARED. What the fields hold stands at the enums below, kind by kind; a field
 * that is not named there is 0.
 */
#ifndef JOYCE_H
#define JOYCE_H

#include <stddef.h>
#include <stdint.h>

#ifdef __cplusplus
extern "C" {
#endif

/* The version of this interface. The first number changes where a host must be changed, the second where something is added or a table may run
 * differently, which docs/CHANGES.md says. There is no function for it: the archive exports the five proved calls and nothing else, and is linked
 * statically with the header that it came with. */
#define JOYCE_VERSION_MAJOR 2
#define JOYCE_VERSION_MINOR 2
#define JOYCE_VERSION_PATCH 4
#define JOYCE_VERSION "2.2.4"

/* Sizes, in bytes. */
#define JOYCE_STATE_SIZE 37376 /* a state: 64 areas of 512 bytes, 64 control records of 40, then a mark for each word of the areas */
#define JOYCE_PAGE_SIZE 8192   /* a device page */
#define JOYCE_TABLE_MAX 7913   /* the longest eight sections; every longer table is refused with JOYCE_SECTIONS */
#define JOYCE_ACCEPTED_MAX 6889 /* the longest table that can be accepted */
#define JOYCE_TEXT_MAX 65535   /* the longest text */
#define JOYCE_SYMBOL_SIZE 7    /* what joyce_symbols writes for a symbol */

/* Limits of a program and of its run. */
#define JOYCE_PROCESSES_MAX 64    /* processes in one run; they are numbered from 1 */
#define JOYCE_AREA_WORDS 256      /* words of a process: the variables of its module, then its calls */
#define JOYCE_TYPE_WORDS_MAX 200  /* words of one type */
#define JOYCE_CALL_WORDS 4        /* words that a call takes of its caller's area, besides its variables */
#define JOYCE_SPACE_MAX 510       /* bytes of the space of a module or of the program */
#define JOYCE_INTEGER_MIN (-32768)
#define JOYCE_INTEGER_MAX 32767
#define JOYCE_CHARACTER_MAX 127
#define JOYCE_STRING_MAX 255      /* characters of one string constant */

/* A program reads and writes the device page by even addresses, -8192..-2. The word with an address stands in the two bytes from address +
 * JOYCE_PAGE_SIZE on, low byte first. */
#define JOYCE_ADDRESS_MIN (-8192)
#define JOYCE_ADDRESS_MAX (-2)

/* ---- The numbers of a table
 *
 * In the comments an entry of another section is named by its section; 'variable node' and 'expression node' are the two sorts of nodes. */

/* A number of a type: a standard one, or JOYCE_DECLARED plus its place in the section of types. */
enum joyce_standard { JOYCE_INTEGER = 0, JOYCE_BOOLEAN = 1, JOYCE_CHARACTER = 2, JOYCE_DECLARED = 3 };

/* The kind of a type. An array of characters is a string; it has an even number of elements. */
enum joyce_type {
    JOYCE_TYPE_RECORD = 1, /* p first field, q number of fields, at least 1 */
    JOYCE_TYPE_ARRAY = 2,  /* p index type, a standard one; q element type; low, high the bounds */
    JOYCE_TYPE_PROCESS = 3 /* p block: a reference to processes of that module */
};

/* The mode of a variable. */
enum joyce_mode {
    JOYCE_MODE_LOCAL = 0,
    JOYCE_MODE_VALUE = 1, /* value parameter */
    JOYCE_MODE_VAR = 2    /* var parameter: another name of the variable that is its argument */
};

/* The kind of a block. The program and each module have a space, even, 0..JOYCE_SPACE_MAX; that of a procedure is 0. */
enum joyce_block {
    JOYCE_BLOCK_PROGRAM = 0,  /* block 0 and no other; owns itself */
    JOYCE_BLOCK_MODULE = 1,   /* what a process carries out; owns itself */
    JOYCE_BLOCK_PROCEDURE = 2 /* owner: the program or a module */
};

/* ---- Space
 *
 * A module, and the program for process 1, reserves room for calls of its own procedures: one call of each, JOYCE_CALL_WORDS and the words of its
 * variables, a var parameter counted as one, and for recursion a word for every two bytes of its space. While a process works on its own variables,
 * a local call fails with JOYCE_AREA where its calls that have not ended and the new one take more words than the reserve, or, with its module's
 * variables, more than JOYCE_AREA_WORDS. Process calls, and local calls inside them, count against JOYCE_AREA_WORDS alone. So a space of 0 is right
 * where no procedure calls itself, directly or through others; for a procedure of w words that is n deep 2 * w * (n - 1) bytes are enough for the
 * reserve, and the sum of these where several are; and with JOYCE_SPACE_MAX, which is for all that need more, the area decides alone. */

/* The kind of a node. */
enum joyce_node {
    JOYCE_NODE_CONSTANT = 0, /* expression: p standard type, v value */
    JOYCE_NODE_WHOLE = 1,    /* variable: p variable */
    JOYCE_NODE_FIELD = 2,    /* variable: p variable node, q place of the field in its record, from 0 */
    JOYCE_NODE_ELEMENT = 3,  /* variable: p variable node, q expression node, the index */
    JOYCE_NODE_VALUE = 4,    /* expression: p variable node */
    JOYCE_NODE_UNARY = 5,    /* expression: p expression node, q enum joyce_unary */
    JOYCE_NODE_BINARY = 6,   /* expression: p, q expression nodes, v enum joyce_binary */
    JOYCE_NODE_TRANSFER = 7, /* expression: p expression node, q standard type */
    JOYCE_NODE_STRING = 8    /* expression, a string constant: p first character, q number of characters, 1..JOYCE_STRING_MAX */
};

/* ---- String constants
 *
 * The nodes of kind JOYCE_NODE_STRING take the characters in the order of the node numbers, each from the next free one on, until none is left. A
 * constant is a string of its length; where that is odd, a character 0 is added.
 *
 * Strings of one length match, whatever their types; so a string can be assigned to, and compared with, one of its own length. As the argument of a
 * value parameter that is a string, of a local or process call, a string may have any length: a shorter one is filled with characters 0, and a
 * longer one is cut. The value of a variable is retrieved whole before it is cut. */

enum joyce_unary {
    JOYCE_UNARY_MINUS = 1,
    JOYCE_UNARY_NOT = 2, /* of a boolean, or of an integer bit by bit */
    JOYCE_UNARY_VAL = 3  /* the device word with that address */
};

enum joyce_binary {
    JOYCE_BINARY_EQUAL = 1,
    JOYCE_BINARY_UNEQUAL = 2,
    JOYCE_BINARY_LESS = 3,
    JOYCE_BINARY_AT_MOST = 4,
    JOYCE_BINARY_GREATER = 5,
    JOYCE_BINARY_AT_LEAST = 6,
    JOYCE_BINARY_ADD = 7,
    JOYCE_BINARY_SUBTRACT = 8,
    JOYCE_BINARY_MULTIPLY = 9,
    JOYCE_BINARY_DIVIDE = 10, /* rounds towards zero */
    JOYCE_BINARY_MOD = 11,    /* has the sign of the dividend */
    JOYCE_BINARY_AND = 12,    /* of booleans, or of integers bit by bit; both sides are evaluated */
    JOYCE_BINARY_OR = 13      /* the same */
};

/* The kind of a statement. */
enum joyce_statement {
    JOYCE_STATEMENT_SKIP = 0,
    JOYCE_STATEMENT_ASSIGN = 1,       /* a variable node, b expression node */
    JOYCE_STATEMENT_CALL = 2,         /* local call: a block, c first argument, d number of arguments */
    JOYCE_STATEMENT_PROCESS_CALL = 3, /* a variable node, the reference; b block, c first argument, d number of arguments */
    JOYCE_STATEMENT_CREATE = 4,       /* a variable node */
    JOYCE_STATEMENT_START = 5,        /* a variable node, c first argument, d number of arguments */
    JOYCE_STATEMENT_IF = 6,           /* an opener: its first arm follows */
    JOYCE_STATEMENT_WHILE = 7,        /* an opener */
    JOYCE_STATEMENT_WHEN = 8,         /* an opener */
    JOYCE_STATEMENT_CYCLE = 9,        /* an opener */
    JOYCE_STATEMENT_ARM = 10,         /* a expression node, the guard; link statement: the next arm, or the end */
    JOYCE_STATEMENT_END = 11,         /* link statement: the opener */
    JOYCE_STATEMENT_WRITE = 12,       /* a expression node, the device address; b expression node, the value */
    JOYCE_STATEMENT_BLOCK_END = 13    /* a block */
};

/* ---- The numbers of a text's symbols */

/* The kind of a symbol. */
enum joyce_symbol {
    JOYCE_SYMBOL_SPECIAL = 1,   /* + - * / = <> < <= > >= := ( ) [ ] . .. , : ; */
    JOYCE_SYMBOL_WORD = 2,      /* and, array, begin .. while: those of the report, and mod */
    JOYCE_SYMBOL_NAME = 3,      /* a letter, then letters and digits: no word, but a standard name too */
    JOYCE_SYMBOL_NUMERAL = 4,   /* digits, or # and octal digits */
    JOYCE_SYMBOL_CHARACTER = 5, /* 'a', '@39': one character */
    JOYCE_SYMBOL_STRING = 6     /* two or more */
};

/* ---- How variables begin
 *
 * Each word of a variable has a mark, which says that it was given a value: by an assignment, by a create, or as a value parameter. A program can
 * retrieve a value only if all its words are marked. The number that joyce_begin takes says how variables begin, in the whole run: those of block 0
 * there, those of a process when it is created, those of a procedure at each call. */
enum joyce_start {
    JOYCE_START_UNSET = 0, /* unmarked: a step that retrieves one before it is given a value fails with JOYCE_UNSET. For new programs */
    JOYCE_START_ZEROS = 1  /* marked, and 0: as in version 1. For programs that rely on it */
};

/* ---- Results and answers */

/* What the calls return. Which call returns which stands at the call. */
enum joyce_result {
    /* done; of a table: accepted */
    JOYCE_OK = 0,
    JOYCE_ACCEPTED = 0,
    /* a lent length is wrong, or the number of joyce_begin is */
    JOYCE_LENGTH = 1,
    /* the sections end early, or bytes are left over */
    JOYCE_SECTIONS = 2,
    /* a kind, mode or operator is unknown, or an unused field is not 0 */
    JOYCE_KINDS = 3,
    /* a number lies outside its section or its range, names an entry of the wrong sort, or breaks an order rule (statement numbers
     * apart); block 0 is missing, is no program or has parameters; another block is a program; a parameter has mode 0, or a variable
     * after the parameters another; a space is wrong */
    JOYCE_NUMBERS = 4,
    /* a node is not used exactly once */
    JOYCE_USES = 5,
    /* openers, arms, ends and block ends do not nest; a link is wrong; a block's statements do not run from its first statement to its own
     * block end; an arm or a body holds no statement */
    JOYCE_NESTING = 6,
    /* a type has more than 200 words; the variables of a module or of block 0 have more than 256; low is above high; a bound lies outside its
     * index type; a character array has an odd number of elements */
    JOYCE_SIZES = 7,
    /* a variable is neither its block's nor the block's owner's; a local call leaves its module */
    JOYCE_SCOPES = 8,
    /* an operand, guard, index, argument or parameter has a wrong type; a process call names a procedure of another module than its
     * variable's; there are too few or too many arguments, or one is no variable for a var parameter, or no expression for another; a constant
     * lies outside its type; a character of the eighth section is above 127 */
    JOYCE_TYPES = 9,
    /* the state breaks the state rule for this program: it is another program's, was damaged, or was never begun */
    JOYCE_STATE = 10,
    /* there is no such word to look at */
    JOYCE_ABSENT = 11,
    /* at some place of the text neither a symbol nor a comment begins; a constant or a comment that is not closed is none */
    JOYCE_NO_SYMBOL = 25,
    /* the word to look at has not been given a value */
    JOYCE_UNSET_WORD = 32,
    /* joyce_look found the word: this number plus the word, 0..65,535 */
    JOYCE_WORD = 65536,
    /* joyce_symbols split the text: this number (that of JOYCE_WORD, of another call) plus the number of its symbols, 0..65,535 */
    JOYCE_SYMBOLS = 65536
};

/* The answer of a step, one byte. From 16 on the run has failed. */
enum joyce_answer {
    /* one statement was carried out */
    JOYCE_DONE = 0,
    /* the process waits, and its own block has not ended: it is not started; the variables that it works on are held by another; every guard
     * of its when or cycle is false; or the target of its process call is not started, or held */
    JOYCE_WAITS = 1,
    /* its own block has ended, in this step or before */
    JOYCE_ENDED = 2,
    /* there is no such process */
    JOYCE_NO_PROCESS = 3,
    /* an integer result lies outside -32,768..32,767 */
    JOYCE_OVERFLOW = 16,
    /* a divisor is 0 */
    JOYCE_DIVISOR = 17,
    /* an index lies outside the bounds of its array */
    JOYCE_INDEX = 18,
    /* a call or start through an empty reference; in a run that began with JOYCE_START_UNSET, one that was never given a value fails with
     * JOYCE_UNSET instead */
    JOYCE_EMPTY = 19,
    /* a process was started twice */
    JOYCE_TWICE = 20,
    /* a device address is odd, or outside -8,192..-2 */
    JOYCE_ADDRESS = 21,
    /* the call does not fit what is left of the process's area, or of what its module reserves for calls of its own procedures: see Space */
    JOYCE_AREA = 22,
    /* a transferred word is no value of the type */
    JOYCE_TRANSFER = 23,
    /* a create while 64 processes exist */
    JOYCE_PROCESSES = 24,
    /* a value is retrieved of which a word was never given one, or a call or start tests such a reference; never in a run that began with
     * JOYCE_START_ZEROS */
    JOYCE_UNSET = 31
};

/* The first answer by which a run fails. */
#define JOYCE_FAILURE 16

/* The verdict on the table_len bytes at table.
 *
 * Returns JOYCE_ACCEPTED, or the lowest of the refusals 2..9 that applies; never 1 or any other number. Above JOYCE_TABLE_MAX bytes it is
 * always JOYCE_SECTIONS. Writes nothing. The time grows with the length, up to JOYCE_TABLE_MAX.
 */
uint32_t joyce_check(const uint8_t *table, size_t table_len);

/* Fills a state in which process 1 is started and stands at the first statement of block 0, and no other process is created. number is
 * JOYCE_START_UNSET or JOYCE_START_ZEROS, and holds for the whole run: the state keeps it.
 *
 * Returns, the first that applies:
 *     JOYCE_LENGTH   state_len is not JOYCE_STATE_SIZE, or number is neither 0 nor 1
 *     2..9           the verdict on the table
 *     JOYCE_OK
 *
 * Afterwards, on JOYCE_OK, all JOYCE_STATE_SIZE bytes are written, and do not depend on what they were before. With JOYCE_START_UNSET no variable
 * has been given a value; with JOYCE_START_ZEROS all variables are 0, and all references empty. On a refusal the state is as it was.
 *
 * With either number, on one schedule and page, the answers are the same up to the first JOYCE_UNSET of the run that began unset.
 */
uint32_t joyce_begin(const uint8_t *table, size_t table_len, uint8_t *state, size_t state_len, uint32_t number);

/* Makes one step for each byte of the schedule, in order. The byte is the number of the process that takes the turn, and may be any.
 *
 * Returns, the first that applies:
 *     JOYCE_LENGTH   state_len is not JOYCE_STATE_SIZE, page_len is not JOYCE_PAGE_SIZE, or answers_len is less than schedule_len
 *     2..9           the verdict on the table
 *     JOYCE_STATE    the state breaks the state rule for this table
 *     JOYCE_OK
 *
 * Afterwards, on JOYCE_OK:
 *     state     is as the last step left it
 *     page      holds what the steps wrote, and else what it held; steps also read it, so it is how a host talks to the program
 *     answers   the first schedule_len bytes are the answers of the steps, in order, each one of enum joyce_answer; the bytes after them are as
 *               they were
 * On a refusal all of them are as they were. An empty schedule is tested like any other, and changes nothing.
 *
 * A step that answers JOYCE_DONE carried out one statement. One that answers JOYCE_WAITS changes nothing, but that a when or cycle whose guards are
 * all false gives up the variables that it works on. JOYCE_ENDED changes the state only in the step in which the block ends, JOYCE_NO_PROCESS never.
 *
 * A step that fails changes nothing but the state's failure mark. Each later step then answers the same number, whatever process it names, and
 * changes nothing; the call still returns JOYCE_OK. Only joyce_begin, or an earlier copy of the state, leads out of it.
 *
 * A run may be cut into calls anywhere, if nobody changes the page between them: one call of n steps and n calls of one step then leave the
 * same answers, state and page.
 */
uint32_t joyce_run(const uint8_t *table, size_t table_len, uint8_t *state, size_t state_len, uint8_t *page, size_t page_len,
                   const uint8_t *schedule, size_t schedule_len, uint8_t *answers, size_t answers_len);

/* One word of a variable of a process. The variable is named by its number in the section of variables, and is one of the process's module (of
 * block 0 for process 1), a parameter too; a procedure's variables cannot be looked at. The place counts the words of the variable from 0: a
 * simple variable has place 0 only, a record or an array its words in order.
 *
 * Returns, the first that applies:
 *     JOYCE_LENGTH       state_len is not JOYCE_STATE_SIZE
 *     2..9               the verdict on the table
 *     JOYCE_STATE        the state breaks the state rule for this table
 *     JOYCE_ABSENT       the process is not started (an ended one counts as started), the variable is not of its module, or the place lies
 *                        outside it
 *     JOYCE_UNSET_WORD   the word has not been given a value; other words of the variable do not matter
 *     JOYCE_WORD + w     where w, 0..65,535, is the word
 *
 * process, variable and place may be any numbers. Writes nothing. It answers after a failed run as before.
 *
 * An integer is joyce_integer(result); a boolean is 0 or 1; a character 0..127; a reference the number of a process, 2..64, or 0, the empty one.
 */
uint32_t joyce_look(const uint8_t *table, size_t table_len, const uint8_t *state, size_t state_len, uint32_t process, uint32_t variable,
                    uint32_t place);

/* Splits a Joyce text into its symbols. docs/TEXT.md has what symbols and comments are.
 *
 * Returns, the first that applies:
 *     JOYCE_LENGTH      text_len is above JOYCE_TEXT_MAX, or out_len is less than JOYCE_SYMBOL_SIZE times text_len; a longer one is fine
 *     JOYCE_NO_SYMBOL   at some place of the text neither a symbol nor a comment begins
 *     JOYCE_SYMBOLS + n where n, 0..65,535, is the number of symbols
 *
 * Afterwards, on JOYCE_SYMBOLS + n, the first JOYCE_SYMBOL_SIZE times n bytes of out have the symbols in the order of the text, seven bytes each:
 * the kind, one of enum joyce_symbol; then three words, low byte first: the line, from 1; the place of the first byte in the text, from 0; the
 * length in bytes. The bytes after them are as they were. On a refusal all of out is as it was.
 *
 * Room is asked for by the length of the text, not by the number of symbols. An empty text has no symbol, and needs no room: with both lengths 0
 * both pointers may be null. The text may be any bytes, and need not end with a 0 or a new line; a byte 0 is no character, so that a text with one
 * is refused with JOYCE_NO_SYMBOL. Places rise, and symbols do not overlap. The time grows with the length of the text, up to JOYCE_TEXT_MAX.
 */
uint32_t joyce_symbols(const uint8_t *text, size_t text_len, uint8_t *out, size_t out_len);

/* A symbol of a text, read off its seven bytes. */
struct joyce_piece {
    unsigned kind;   /* enum joyce_symbol */
    unsigned line;   /* from 1 */
    unsigned place;  /* of its first byte in the text, from 0 */
    unsigned length; /* in bytes */
};

/* The symbol with that number, from 0, of those that joyce_symbols wrote to out. The number is below theirs. */
static inline struct joyce_piece joyce_symbol_at(const uint8_t *out, size_t number)
{
    const uint8_t *at = out + JOYCE_SYMBOL_SIZE * number;
    struct joyce_piece piece;
    piece.kind = at[0];
    piece.line = at[1] + 256u * at[2];
    piece.place = at[3] + 256u * at[4];
    piece.length = at[5] + 256u * at[6];
    return piece;
}

/* The integer, -32,768..32,767, that a word of joyce_look or of a device page stands for. */
static inline int joyce_integer(uint32_t word)
{
    word &= 0xffffu;
    return word < 0x8000u ? (int)word : (int)word - 0x10000;
}

/* The device word with an even address, JOYCE_ADDRESS_MIN..JOYCE_ADDRESS_MAX, of a page of JOYCE_PAGE_SIZE bytes. */
static inline int joyce_get(const uint8_t *page, int address)
{
    const uint8_t *at = page + (address - JOYCE_ADDRESS_MIN);
    return joyce_integer((uint32_t)(at[0] + 256 * at[1]));
}

/* Makes it value. */
static inline void joyce_put(uint8_t *page, int address, int value)
{
    uint8_t *at = page + (address - JOYCE_ADDRESS_MIN);
    at[0] = (uint8_t)((unsigned)value & 0xffu);
    at[1] = (uint8_t)((unsigned)value >> 8 & 0xffu);
}

#ifdef __cplusplus
}
#endif

#endif
