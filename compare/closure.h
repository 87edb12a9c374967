/* Which tags follow equal from a set of records: document 01, "Tags, records, following". Twice, in two ways that share
   nothing: the definition done literally (small jobs), and classes with use lists (any job). Rests on job.h. */
#ifndef CLOSURE_H
#define CLOSURE_H

#include "job.h"

#include <stdint.h>

/* What the literal closure can hold. */
enum { LITERAL_TAGS = 64, LITERAL_RECORDS = 256 };

/* The relation itself: bit y of row[x] says that x and y follow equal. For at most LITERAL_TAGS tags. */
struct relation {
    uint64_t row[LITERAL_TAGS];
};

/* The least relation that the definition asks for, from the records with these numbers: add what it asks for until
   nothing is missing. */
void literal_close(struct relation *relation, int tags, const struct record *record, const int *numbers, int count);

int literal_same(const struct relation *relation, int s, int t);

/* Classes with use lists. Every write is noted, so that records can be taken back in the order last in, first out. */
struct closure;

struct closure *closure_new(void);
void closure_start(struct closure *closure, int tags);
void closure_add(struct closure *closure, const struct record *record);
int closure_same(const struct closure *closure, int s, int t);
int closure_leader(const struct closure *closure, int s);
int closure_classes(const struct closure *closure);
size_t closure_mark(const struct closure *closure);
void closure_back(struct closure *closure, size_t mark);

/* From now on, when x and y become joined, first[x * tags + y] becomes *now (both ways round). NULL stops it. */
void closure_watch(struct closure *closure, unsigned short *first, const int *now);

#endif
