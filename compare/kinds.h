/* The kinds of jobs that the comparison and the speed tables use, each fixed by its name, a size, a seed and an index.
   Rests on job.h and on the growing bytes of answers.h. */
#ifndef KINDS_H
#define KINDS_H

#include "answers.h"

#include <stdint.h>

struct kind {
    const char *name;
    const char *what;
    int size;                                              /* the usual number of tags, or 0 where it has no meaning */
    void (*make)(struct bytes *out, int size, uint64_t seed, long index);
    long (*cases)(uint64_t seed);                          /* how many there are, or NULL where there is no end */
};

extern const struct kind kinds[];

/* The kind of this name, or NULL. A name may end in a colon and a size; `size` gets it, or the usual one. */
const struct kind *kind_named(const char *name, int *size);

/* The inspector's job of document 01. */
void inspectors_job(struct bytes *out);

#endif
