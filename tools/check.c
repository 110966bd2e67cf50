/* The commands check and show: the verdict on a table, where it is wrong, and what it holds. */
#include "check.h"
#include "joyce.h"
#include "names.h"
#include "show.h"

#include <stdio.h>
#include <stdlib.h>

/* Where a refused table is wrong: the place, the reason, and the entry in words. */
static void print_explanation(const char *name, struct bytes table, const struct fault *fault)
{
    struct table sections;
    int broken;
    print_fault(stdout, fault);
    if (!read_sections(&sections, table.at, table.length, &broken))
        return;
    struct labels *labels = labels_beside(name);
    struct text text = {&sections, labels, stdout, 0};
    show_place(&text, fault);
    labels_free(labels);
}

int judge_table(const char *name, struct bytes table, struct fault *fault, bool is_accepted_said)
{
    uint32_t verdict = joyce_check(table.at, table.length);
    explain(table.at, table.length, fault);
    if (verdict != JOYCE_ACCEPTED || is_accepted_said)
        printf("%s: %s%zu bytes%s, verdict %u: %s\n", name, table.length > JOYCE_TABLE_MAX ? "at least " : "", table.length,
               table.length == 0 ? " (no cartridge: a program that skips and ends)" : "", (unsigned)verdict, result_words(verdict));
    if (fault->verdict != verdict) {
        complain("%s: the library says %u, and the explanation %u: one of them is wrong. Please report it, with the table.", name, (unsigned)verdict,
                 (unsigned)fault->verdict);
        return CONTRADICTED;
    }
    if (verdict == JOYCE_ACCEPTED)
        return DONE;
    print_explanation(name, table, fault);
    return REFUSED;
}

int open_program(const char *name, const char *names, bool is_accepted_said, struct program *p)
{
    struct fault fault;
    int broken;
    p->bytes = read_table_file(name);
    p->labels = NULL;
    int status = judge_table(name, p->bytes, &fault, is_accepted_said);
    if (status != DONE || !read_sections(&p->sections, p->bytes.at, p->bytes.length, &broken))
        return status;
    p->labels = names ? labels_read(names) : labels_beside(name);
    return DONE;
}

void close_program(struct program *p)
{
    labels_free(p->labels);
    free(p->bytes.at);
}

/* ---- check */

static int check_file(const char *name)
{
    struct bytes table;
    struct fault fault;
    if (!try_read(name, JOYCE_TABLE_MAX + 1, &table))
        return UNUSABLE;
    int status = judge_table(name, table, &fault, true);
    free(table.at);
    return status;
}

/* The status of several files is the highest. */
int check_command(int count, char **words)
{
    int status = DONE;
    count = take_options("check", count, words, NULL, 0);
    if (count == 0)
        stop("check: no table is named; see joyce check --help");
    for (int i = 0; i < count; i++) {
        int of_file = check_file(words[i]);
        if (of_file > status)
            status = of_file;
    }
    return status;
}

/* ---- show */

int show_command(int count, char **words)
{
    const char *names = NULL;
    bool is_flat = false;
    const struct option options[] = {{.name = "--names", .text = &names}, {.name = "--entries", .flag = &is_flat}};
    struct table sections;
    struct fault fault;
    int broken;
    count = take_options("show", count, words, options, sizeof options / sizeof *options);
    if (count != 1)
        stop("show: one table is needed; see joyce show --help");
    struct bytes table = read_table_file(words[0]);
    struct labels *labels = names ? labels_read(names) : labels_beside(words[0]);
    struct text text = {&sections, labels, stdout, 0};
    int status = judge_table(words[0], table, &fault, false);
    if (!read_sections(&sections, table.at, table.length, &broken))
        ; /* nothing can be shown, and the verdict says where it is cut */
    else if (status == DONE && !is_flat)
        show_program(&text);
    else
        show_entries(&text, status == REFUSED ? &fault : NULL);
    labels_free(labels);
    free(table.at);
    return status;
}
