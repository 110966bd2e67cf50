/* The tool of joyce.h: it checks tables, runs them, looks into states and splits texts. See `usage` below, and docs/TOOL.md. */
#include "joyce.h"
#include "names.h"
#include "tool.h"

#include <stdio.h>
#include <string.h>

static const char usage[] =
    "usage:\n"
    "  joyce check TABLE..                 says whether each file is a program, and if not, where it is wrong\n"
    "  joyce show TABLE                    prints a table as text; a refused one entry by entry\n"
    "  joyce run TABLE SCHEDULE            runs a program; a byte of the schedule is the process that takes the turn\n"
    "  joyce look TABLE STATE [PROCESS]    prints processes, calls and variables\n"
    "  joyce look TABLE STATE PROCESS VARIABLE [PLACE]   prints words of a variable\n"
    "  joyce symbols TEXT                  splits a text into its symbols, or says where none begins\n"
    "  joyce numbers                       says what every number means\n"
    "  joyce version | help                and --version, --help, -h\n"
    "options, before or after the files, as --times 3 or --times=3; after -- all words are files:\n"
    "  --names FILE         show, run, look: the names; else those beside the table are used, board.names for board.tab\n"
    "  --entries            show: every entry, of an accepted table too\n"
    "options of run:\n"
    "  --times N            repeats the schedule N times\n"
    "  --skip N             begins after the first N turns of the schedule\n"
    "  --zeros              begins with variables as zeros; else a variable has no value before it is given one\n"
    "  --state FILE         goes on from this state, not from the program's beginning\n"
    "  --page FILE          the device page before the first step, else all 0\n"
    "  --go-on              goes on after a failure; else the run ends there\n"
    "  --break P:S          stops before process P takes a turn at statement S, and prints its calls and variables\n"
    "  --list               prints a line for each step\n"
    "  --trace              the same, with the block and the statement in words\n"
    "  --picture FILE       draws the turns of the processes over time, as SVG\n"
    "  --from N, --to N     the first and the last step that are listed, traced and drawn\n"
    "  --save-state FILE    keeps the state afterwards\n"
    "  --save-page FILE     keeps the device page afterwards\n"
    "exit status: 0 done, 1 refused by the library, 2 a file or the command line, 3 the run failed, 4 the tool's explanation of a\n"
    "table, a text or an answer 22 or 31 is not the library's\n";

void print_usage(void)
{
    fputs(usage, stdout);
}

static int print_version(void)
{
    printf("joyce %s\n", JOYCE_VERSION);
    return DONE;
}

static bool is_one_of(const char *word, const char *a, const char *b, const char *c)
{
    return strcmp(word, a) == 0 || strcmp(word, b) == 0 || strcmp(word, c) == 0;
}

static int run_words(int count, char **words)
{
    const char *command = count > 0 ? words[0] : "";
    if (strcmp(command, "check") == 0)
        return check_command(count - 1, words + 1);
    if (strcmp(command, "show") == 0)
        return show_command(count - 1, words + 1);
    if (strcmp(command, "run") == 0)
        return run_command(count - 1, words + 1);
    if (strcmp(command, "look") == 0)
        return look_command(count - 1, words + 1);
    if (strcmp(command, "symbols") == 0)
        return symbols_command(count - 1, words + 1);
    if (is_one_of(command, "version", "--version", "-V"))
        return print_version();
    if (is_one_of(command, "help", "--help", "-h")) {
        print_usage();
        return DONE;
    }
    if (strcmp(command, "numbers") != 0)
        stop("%s%s\n%s", command, *command ? " is no command" : "no command is named", usage);
    if (take_options("numbers", count - 1, words + 1, NULL, 0) > 0)
        stop("numbers: no words are needed; see joyce --help");
    print_numbers();
    return DONE;
}

int main(int argc, char **argv)
{
    int status = run_words(argc - 1, argv + 1);
    if (fflush(stdout) != 0 || ferror(stdout))
        stop("cannot write to standard output");
    return status;
}
