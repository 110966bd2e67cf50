/* unset.h: what a process retrieves unset where its step answers 31. */
#ifndef UNSET_H
#define UNSET_H

#include "view.h"

/* Writes, as part of a line, which variable it is: 'rest has no value (word 1 of process 2)'. The process stands where it failed, and the page
 * is as it was. False, and nothing is written, where no retrieval of the statement is unset. */
bool write_unset(struct view *v, const uint8_t *page, unsigned process);

#endif
