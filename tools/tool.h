/* tool.h: what the commands of the tool share: exit statuses, files, options. */
#ifndef TOOL_H
#define TOOL_H

#include <stdbool.h>
#include <stddef.h>
#include <stdint.h>

/* exit statuses */
enum status { DONE = 0, REFUSED = 1, UNUSABLE = 2, FAILED = 3, CONTRADICTED = 4 };

/* The commands: the words after the command's own. They return the exit status. */
int check_command(int count, char **words);
int show_command(int count, char **words);
int run_command(int count, char **words);
int look_command(int count, char **words);
int symbols_command(int count, char **words);

void print_usage(void);

/* A message to standard error. */
void complain(const char *format, ...);

/* A message to standard error, and the end: UNUSABLE. */
void stop(const char *format, ...);

/* ---- files */

struct bytes {
    uint8_t *at;
    size_t length;
};

enum { NO_LIMIT = 0 };

/* At most `limit` bytes of a file; a message and false where it cannot be read. */
bool try_read(const char *name, size_t limit, struct bytes *bytes);

/* The same, and the end where it cannot be read. */
struct bytes read_file(const char *name, size_t limit);

/* A table: one byte more than a table can have at most, so that a longer file is refused. */
struct bytes read_table_file(const char *name);

/* A file of exactly so many bytes, or the end. */
void read_exactly(const char *name, uint8_t *bytes, size_t length, const char *what);

/* Ends where the file cannot be written. What it holds is kept. */
void test_writable(const char *name);

void write_file(const char *name, const uint8_t *bytes, size_t length);

/* ---- options */

/* One of text, number and flag is set; the limit is the number's. */
struct option {
    const char *name; /* with its dashes */
    const char **text;
    uint64_t *number;
    bool *flag;
    uint64_t limit;
};

/* Takes the options, --name VALUE or --name=VALUE, from the words, wherever they stand; the other words come first afterwards, and their number is
 * returned. After -- all words are others. --help and -h print the usage and end. */
int take_options(const char *command, int count, char **words, const struct option *options, size_t option_count);

uint64_t read_number(const char *text, const char *what, uint64_t limit);

#endif
