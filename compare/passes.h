/* The closure as passes, with a limit on those that change something: document 02, No. 12, and for the leaders No. 3. Written from that document alone;
   rests on job.h. */
#ifndef PASSES_H
#define PASSES_H

#include "job.h"

/* What the engine must answer: a number with place 0, and where it is 0 the count and the leader of every tag. */
struct passes {
    int number;
    long count;
    int leader[MOST_TAGS];
};

/* Of a job that was read well, with a room of so many bytes and a limit. */
void passes_of(struct passes *passes, const struct job *job, long room, long limit);

/* What one who watches must be told: how many passes were made, at most so many, and the leaders by the classes after them. */
void passes_after(struct passes *passes, const struct job *job, long room, long most);

#endif
