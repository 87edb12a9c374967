/* The two closures of closure.h. The first is meant to be believed at sight; the second is the algorithm of rta05 (source
   document 002: representatives, class lists, use lists, lookup table) without proofs, held against the first by the
   self-test. Rests on closure.h. */
#include "closure.h"

#include <stdio.h>
#include <stdlib.h>
#include <string.h>

/* ---- the definition, literally ---- */

int literal_same(const struct relation *relation, int s, int t)
{
    return (int)(relation->row[s] >> t & 1);
}

static int ask_for(struct relation *relation, int x, int y)
{
    if (literal_same(relation, x, y))
        return 0;
    relation->row[x] |= (uint64_t)1 << y;
    return 1;
}

static int one_round(struct relation *relation, int tags, const struct record *record, const int *numbers, int count)
{
    int added = 0;
    for (int x = 0; x < tags; x++) /* reflexive */
        added |= ask_for(relation, x, x);
    for (int x = 0; x < tags; x++) /* symmetric */
        for (int y = 0; y < tags; y++)
            if (literal_same(relation, x, y))
                added |= ask_for(relation, y, x);
    for (int x = 0; x < tags; x++) /* transitive */
        for (int y = 0; y < tags; y++)
            if (literal_same(relation, x, y) && (relation->row[y] & ~relation->row[x]) != 0) {
                relation->row[x] |= relation->row[y];
                added = 1;
            }
    for (int i = 0; i < count; i++) { /* the records */
        const struct record *r = &record[numbers[i]];
        if (!r->apply) {
            added |= ask_for(relation, r->a, r->b);
            continue;
        }
        for (int j = 0; j < count; j++) { /* two applications with equal arguments */
            const struct record *q = &record[numbers[j]];
            if (q->apply && literal_same(relation, r->a, q->a) && literal_same(relation, r->b, q->b))
                added |= ask_for(relation, r->c, q->c);
        }
    }
    return added;
}

void literal_close(struct relation *relation, int tags, const struct record *record, const int *numbers, int count)
{
    memset(relation, 0, sizeof *relation);
    while (one_round(relation, tags, record, numbers, count))
        ;
}

/* ---- classes with use lists ---- */

/* All that changes stands in one array of cells, so that one trail can take any write back. */
enum {
    REP = 0,                            /* by tag: the representative */
    NEXT = REP + MOST_TAGS,             /* by tag: the next of its class, a ring */
    SIZE = NEXT + MOST_TAGS,            /* by representative */
    LOW = SIZE + MOST_TAGS,             /* by representative: the smallest of the class */
    HEAD = LOW + MOST_TAGS,             /* by representative: first and last place of its use list, or -1 */
    TAIL = HEAD + MOST_TAGS,
    LINK = TAIL + MOST_TAGS,            /* by place of a use list: the next place, or -1; two places an application */
    CLASSES = LINK + 2 * MOST_RECORDS,
    USES = CLASSES + 1,                 /* how many applications are in */
    LOOK = USES + 1,                    /* by two representatives: 1 + the result of an application of them, or 0 */
    CELLS = LOOK + MOST_TAGS * MOST_TAGS
};

struct write {
    int cell, old;
};

struct closure {
    int tags;
    int cell[CELLS];
    struct record use[MOST_RECORDS];
    struct write *trail;
    size_t written, space;
    int *pending;
    size_t waiting, waiting_space;
    unsigned short *first;
    const int *now;
};

static void *grown(void *old, size_t bytes)
{
    void *new = realloc(old, bytes);
    if (new == NULL) {
        fprintf(stderr, "second: out of memory\n");
        exit(2);
    }
    return new;
}

static void put(struct closure *c, int cell, int value)
{
    if (c->written == c->space) {
        c->space = c->space * 2 + 1024;
        c->trail = grown(c->trail, c->space * sizeof *c->trail);
    }
    c->trail[c->written].cell = cell;
    c->trail[c->written].old = c->cell[cell];
    c->written++;
    c->cell[cell] = value;
}

static void await(struct closure *c, int x, int y)
{
    if (c->waiting + 2 > c->waiting_space) {
        c->waiting_space = c->waiting_space * 2 + 1024;
        c->pending = grown(c->pending, c->waiting_space * sizeof *c->pending);
    }
    c->pending[c->waiting++] = x;
    c->pending[c->waiting++] = y;
}

struct closure *closure_new(void)
{
    struct closure *c = calloc(1, sizeof *c);
    if (c == NULL) {
        fprintf(stderr, "second: out of memory\n");
        exit(2);
    }
    return c;
}

void closure_start(struct closure *c, int tags)
{
    closure_back(c, 0);
    c->tags = tags;
    for (int x = 0; x < tags; x++) {
        c->cell[REP + x] = c->cell[NEXT + x] = c->cell[LOW + x] = x;
        c->cell[SIZE + x] = 1;
        c->cell[HEAD + x] = c->cell[TAIL + x] = -1;
    }
    c->cell[CLASSES] = tags;
    c->cell[USES] = 0;
    c->first = NULL;
}

void closure_watch(struct closure *c, unsigned short *first, const int *now)
{
    c->first = first;
    c->now = now;
}

static int rep(const struct closure *c, int x)
{
    return c->cell[REP + x];
}

/* The application is looked up by its representatives: kept if it is the first, otherwise its result waits to be joined. */
static void look_up(struct closure *c, const struct record *r)
{
    int look = LOOK + rep(c, r->a) * c->tags + rep(c, r->b);
    if (c->cell[look] == 0)
        put(c, look, r->c + 1);
    else if (rep(c, c->cell[look] - 1) != rep(c, r->c))
        await(c, c->cell[look] - 1, r->c);
}

static void add_use(struct closure *c, int x, int place)
{
    int r = rep(c, x);
    put(c, LINK + place, -1);
    if (c->cell[HEAD + r] < 0)
        put(c, HEAD + r, place);
    else
        put(c, LINK + c->cell[TAIL + r], place);
    put(c, TAIL + r, place);
}

static void note_pairs(struct closure *c, int small, int large)
{
    int x = small;
    do {
        int y = large;
        do {
            c->first[x * c->tags + y] = c->first[y * c->tags + x] = (unsigned short)*c->now;
            y = c->cell[NEXT + y];
        } while (y != large);
        x = c->cell[NEXT + x];
    } while (x != small);
}

static void join_uses(struct closure *c, int small, int large)
{
    if (c->cell[HEAD + small] < 0)
        return;
    for (int place = c->cell[HEAD + small]; place >= 0; place = c->cell[LINK + place])
        look_up(c, &c->use[place / 2]);
    if (c->cell[HEAD + large] < 0)
        put(c, HEAD + large, c->cell[HEAD + small]);
    else
        put(c, LINK + c->cell[TAIL + large], c->cell[HEAD + small]);
    put(c, TAIL + large, c->cell[TAIL + small]);
}

static void join(struct closure *c, int x, int y)
{
    int small = rep(c, x), large = rep(c, y);
    if (small == large)
        return;
    if (c->cell[SIZE + small] > c->cell[SIZE + large]) {
        small = rep(c, y);
        large = rep(c, x);
    }
    if (c->first != NULL)
        note_pairs(c, small, large);
    int z = small;
    do {
        put(c, REP + z, large);
        z = c->cell[NEXT + z];
    } while (z != small);
    int after = c->cell[NEXT + small];
    put(c, NEXT + small, c->cell[NEXT + large]);
    put(c, NEXT + large, after);
    put(c, SIZE + large, c->cell[SIZE + large] + c->cell[SIZE + small]);
    if (c->cell[LOW + small] < c->cell[LOW + large])
        put(c, LOW + large, c->cell[LOW + small]);
    put(c, CLASSES, c->cell[CLASSES] - 1);
    join_uses(c, small, large);
}

void closure_add(struct closure *c, const struct record *record)
{
    if (!record->apply)
        await(c, record->a, record->b);
    else {
        int use = c->cell[USES];
        put(c, USES, use + 1);
        c->use[use] = *record;
        add_use(c, record->a, 2 * use);
        if (rep(c, record->a) != rep(c, record->b))
            add_use(c, record->b, 2 * use + 1);
        look_up(c, record);
    }
    while (c->waiting > 0) {
        c->waiting -= 2;
        join(c, c->pending[c->waiting], c->pending[c->waiting + 1]);
    }
}

int closure_same(const struct closure *c, int s, int t)
{
    return rep(c, s) == rep(c, t);
}

int closure_leader(const struct closure *c, int s)
{
    return c->cell[LOW + rep(c, s)];
}

int closure_classes(const struct closure *c)
{
    return c->cell[CLASSES];
}

size_t closure_mark(const struct closure *c)
{
    return c->written;
}

void closure_back(struct closure *c, size_t mark)
{
    while (c->written > mark) {
        c->written--;
        c->cell[c->trail[c->written].cell] = c->trail[c->written].old;
    }
}
