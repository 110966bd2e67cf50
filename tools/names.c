#include "names.h"
#include "joyce.h"

#include <stdio.h>

const char *result_words(uint32_t result)
{
    switch (result) {
    case JOYCE_OK: return "accepted";
    case JOYCE_LENGTH: return "a lent length is wrong, or begin's number is neither 0 nor 1";
    case JOYCE_SECTIONS: return "the sections end early, or bytes are left over";
    case JOYCE_KINDS: return "an unknown kind, mode or operator, or an unused field that is not 0";
    case JOYCE_NUMBERS: return "a number out of range, of the wrong sort or out of order";
    case JOYCE_USES: return "a node that is not used exactly once";
    case JOYCE_NESTING: return "statements that do not nest";
    case JOYCE_SIZES: return "a type or a module that is too large, or wrong bounds of an array";
    case JOYCE_SCOPES: return "a variable or a procedure out of scope";
    case JOYCE_TYPES: return "a wrong type, wrong arguments, or a constant or character outside its type";
    case JOYCE_STATE: return "the state is no state of this program";
    case JOYCE_ABSENT: return "no such word: the process is not started, the variable is not of its module, or the place lies outside it";
    case JOYCE_NO_SYMBOL: return "at some place of the text neither a symbol nor a comment begins";
    case JOYCE_UNSET_WORD: return "the word has not been given a value";
    default: return "no result of the library";
    }
}

const char *answer_words(unsigned answer)
{
    switch (answer) {
    case JOYCE_DONE: return "advanced";
    case JOYCE_WAITS: return "waits";
    case JOYCE_ENDED: return "has ended";
    case JOYCE_NO_PROCESS: return "no such process";
    case JOYCE_OVERFLOW: return "failed: integer result out of range";
    case JOYCE_DIVISOR: return "failed: divisor 0";
    case JOYCE_INDEX: return "failed: index out of range";
    case JOYCE_EMPTY: return "failed: call or start through an empty reference";
    case JOYCE_TWICE: return "failed: started twice";
    case JOYCE_ADDRESS: return "failed: device address odd, or outside -8192..-2";
    case JOYCE_AREA: return "failed: no room for the call in the process's reserve or area";
    case JOYCE_TRANSFER: return "failed: transferred word is no value of the type";
    case JOYCE_PROCESSES: return "failed: create while 64 processes exist";
    case JOYCE_UNSET: return "failed: a variable is retrieved that has not been given a value";
    default: return "no answer of the library";
    }
}

void print_numbers(void)
{
    puts("results of calls");
    for (uint32_t result = JOYCE_OK; result <= JOYCE_ABSENT; result++)
        printf("  %2u  %s\n", (unsigned)result, result_words(result));
    printf("  %2u  %s\n", JOYCE_NO_SYMBOL, result_words(JOYCE_NO_SYMBOL));
    printf("  %2u  %s\n", JOYCE_UNSET_WORD, result_words(JOYCE_UNSET_WORD));
    puts("answers of steps");
    for (unsigned answer = JOYCE_DONE; answer <= JOYCE_PROCESSES; answer++)
        if (answer <= JOYCE_NO_PROCESS || answer >= JOYCE_FAILURE)
            printf("  %2u  %s\n", answer, answer_words(answer));
    printf("  %2u  %s\n", JOYCE_UNSET, answer_words(JOYCE_UNSET));
}
