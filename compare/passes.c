/* Passes, as document 02, No. 12 has them: the present classes are kept apart from those in the making, so that arguments stand together by the classes at the
   pass's beginning. Two applications are compared pair by pair; nothing is looked up. Rests on passes.h. */
#include "passes.h"

#include <string.h>

/* A class in the making is named by any of its tags. */
static int name(const int *making, int x)
{
    while (making[x] != x)
        x = making[x];
    return x;
}

static int unite(int *making, int x, int y)
{
    int a = name(making, x), b = name(making, y);
    making[a] = b;
    return a != b;
}

/* One pass: from the present classes to the next. Whether it changed something. */
static int pass(int *present, const struct job *job)
{
    int making[MOST_TAGS], changed = 0;
    memcpy(making, present, sizeof making); /* the least equivalence that holds the present classes, .. */
    for (int i = 1; i <= job->records; i++) {
        const struct record *r = &job->record[i];
        if (!r->apply) { /* .. every equation, .. */
            changed |= unite(making, r->a, r->b);
            continue;
        }
        for (int j = 1; j < i; j++) { /* .. and the results of every two applications whose arguments now stand together */
            const struct record *q = &job->record[j];
            if (q->apply && present[q->a] == present[r->a] && present[q->b] == present[r->b])
                changed |= unite(making, q->c, r->c);
        }
    }
    for (int x = 0; x < job->tags; x++)
        present[x] = name(making, x);
    return changed;
}

/* The smallest unit of the class, or its smallest tag if it has no unit. */
static int leader(const int *present, const struct job *job, int x)
{
    for (int y = job->units; y < job->tags; y++)
        if (present[y] == present[x])
            return y;
    for (int y = 0; y < job->tags; y++)
        if (present[y] == present[x])
            return y;
    return x;
}

/* Makes passes until one changes nothing or so many have changed something: the count, and the leaders by the classes then. */
static void make_passes(struct passes *passes, const struct job *job, long most)
{
    int present[MOST_TAGS];
    for (int x = 0; x < MOST_TAGS; x++) /* from single classes */
        present[x] = x;
    while (passes->count < most && pass(present, job))
        passes->count++;
    for (int x = 0; x < job->tags; x++)
        passes->leader[x] = leader(present, job, x);
}

static int cramped(struct passes *passes, const struct job *job, long room)
{
    memset(passes, 0, sizeof *passes);
    if (room < 2L * job->tags)
        passes->number = 9;
    return passes->number != 0;
}

void passes_of(struct passes *passes, const struct job *job, long room, long limit)
{
    if (cramped(passes, job, room))
        return;
    make_passes(passes, job, job->tags); /* there are at most N-1 */
    if (passes->count > limit) {
        memset(passes, 0, sizeof *passes);
        passes->number = 19;
    }
}

void passes_after(struct passes *passes, const struct job *job, long room, long most)
{
    if (!cramped(passes, job, room))
        make_passes(passes, job, most);
}
