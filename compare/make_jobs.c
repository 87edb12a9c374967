/* make_jobs KIND[:N] SEED: one job to standard output. make_jobs KIND[:N] SEED COUNT: that many jobs as frames, each `J`, its
   length in four bytes, high byte first, and its bytes; for a kind with an end (cut, byte, limit) COUNT 0 means all of
   it. make_jobs: the list of kinds. Rests on kinds.h. */
#include "kinds.h"

#include <stdio.h>
#include <stdlib.h>

static void frame(const struct bytes *job)
{
    putchar('J');
    for (int shift = 24; shift >= 0; shift -= 8)
        putchar((int)(job->length >> shift & 255));
    fwrite(job->at, 1, job->length, stdout);
}

static int list(void)
{
    for (const struct kind *kind = kinds; kind->name != NULL; kind++)
        printf("%-16s %5d  %s\n", kind->name, kind->size, kind->what);
    return 0;
}

int main(int argc, char **argv)
{
    if (argc == 1)
        return list();
    int size = 0;
    const struct kind *kind = kind_named(argv[1], &size);
    if (kind == NULL || argc > 4 || argc < 3) {
        fprintf(stderr, "make_jobs: make_jobs KIND[:N] SEED [COUNT]; N from 1 to %d; without arguments: the kinds\n", MOST_TAGS);
        return 2;
    }
    uint64_t seed = strtoull(argv[2], NULL, 10);
    long count = argc == 4 ? strtol(argv[3], NULL, 10) : 1;
    long all = kind->cases == NULL ? count : kind->cases(seed);
    struct bytes job = {0};
    for (long i = 0; i < all && (count == 0 || i < count); i++) {
        job.length = 0;
        kind->make(&job, size, seed, i);
        if (argc == 4)
            frame(&job);
        else
            fwrite(job.at, 1, job.length, stdout);
    }
    free(job.at);
    return fflush(stdout) == 0 && !ferror(stdout) ? 0 : 1;
}
