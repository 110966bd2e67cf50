/* tests.h: the tests of the calls, by file. */
#ifndef TESTS_H
#define TESTS_H

void refusal_tests(void); /* refusals.c: the numbers 1 to 11, and what a refusal leaves */
void answer_tests(void);  /* answers.c: each answer of a step, the slices that a success leaves */
void empty_tests(void);   /* empty.c: zero bytes of table, an empty cartridge slot */
void edge_tests(void);    /* edges.c: the edges of 01, each by its numbers */
void state_tests(void);   /* states.c: states that are stale or damaged, looks, threads */
void forged_tests(void);  /* forged.c: states that no run reaches, each with one fact of the rule broken */
void unset_tests(void);   /* unset.c: variables that begin unset, or as zeros */
void string_tests(void);  /* strings.c: string constants, fitted arguments, both lengths of table */
void space_tests(void);   /* spaces.c: reserves of modules for recursive procedures */
void story_tests(void);   /* stories.c: the three tests that a user asked for */

#endif
