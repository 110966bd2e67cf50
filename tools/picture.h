/* picture.h: the turns of the processes over time, drawn as an SVG file: a lane a process, and in it who advanced, waited, had ended, failed. */
#ifndef PICTURE_H
#define PICTURE_H

#include <stdint.h>
#include <stdio.h>

struct picture;

/* A picture of the steps after the first `before`; null where there is no memory. */
struct picture *picture_new(uint64_t before);
void picture_step(struct picture *picture, unsigned process, unsigned answer);

/* Marks the last step as the one at which the run failed; `why` says more, or is null. It is kept, not copied. */
void picture_failure(struct picture *picture, unsigned process, unsigned answer, const char *why);

/* The name of a process; kept, not copied. */
void picture_name(struct picture *picture, unsigned process, const char *name);
void picture_write(struct picture *picture, FILE *file, const char *title);
void picture_free(struct picture *picture);

#endif
