/* labels.h: the names of a program's blocks, variables, types, fields and device words, from a file beside its table. docs/TOOL.md has its form. */
#ifndef LABELS_H
#define LABELS_H

enum label_kind { BLOCK_LABEL, VARIABLE_LABEL, TYPE_LABEL, FIELD_LABEL, DEVICE_LABEL, LABEL_KINDS };

struct labels;

/* The names in a file, which must be there; a fault in it is the end. */
struct labels *labels_read(const char *file);

/* The names beside a table: board.names for board.tab; null where there is no such file. */
struct labels *labels_beside(const char *table);

/* The name of an entry, or of a device word by its address; null where it has none, or there are no names. */
const char *label_of(const struct labels *labels, enum label_kind kind, int number);

void labels_free(struct labels *labels);

#endif
