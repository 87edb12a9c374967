/* A job read by document 01, sections "The job and the report" and "What is lent, and each refusal", and by document 02, No. 1 to 3, 7 and 9.
   Written from those documents alone; rests on nothing else here. */
#ifndef JOB_H
#define JOB_H

#include <stddef.h>

enum {
    LONGEST_JOB = 46510,
    LONGEST_SHEETED = 54510, /* of edition 2: its first byte is 11 */
    MOST_SHEET = 9999,
    MOST_TAGS = 1000,
    MOST_RECORDS = 4000,
    MOST_PAIRS = 500, /* of kind 05 */
    MOST_QUESTIONS = 1000,
    RECORD_PLACES = 4000, /* named places of the record table */
    WORK_PLACES = 32768,  /* named places of the work table */
    LENT_ROOM = 60000     /* the report room that the program tagcheck lends */
};

enum {
    KIND_TAGS = 0x10,
    KIND_SHEETED = 0x11, /* the header of edition 2 */
    KIND_EQUAL = 0x01,
    KIND_APPLY = 0x02,
    KIND_ASK = 0x03,
    KIND_EXPLAIN = 0x04,
    KIND_DIFFER = 0x05,
    KIND_BROKEN = 0x06,
    KIND_WHY = 0x07,
    KIND_END = 0x7F,
    KIND_LEADERS = 0x83,
    KIND_REASON = 0x84,
    KIND_NOT = 0x85,
    KIND_BREACH = 0x86,
    KIND_WHOLE = 0x87,
    KIND_APART = 0x88, /* the leader of every tag */
    KIND_EQUALS = 0x89,
    KIND_SHEETS = 0x8A, /* the sheets of the reason before it */
    KIND_TOTALS = 0x8F
};

/* a = b, or f(a, b) = c. */
struct record {
    int apply;
    int a, b, c;
    int sheet; /* 0 for none */
};

/* Two tags that must differ. */
struct pair {
    int a, b;
};

/* An ask or an explain on s and t, or a 06, which has no tags. */
struct question {
    int explain;
    int s, t;
    int before; /* how many records stand before it */
    int broken; /* a 06 */
    int pairs;  /* how many pairs that must differ stand before it */
    int why;    /* document 02, No. 7 */
};

/* Either a refusal with its place, or number 0 and what the job says. */
struct job {
    int number;
    long place;
    int edition; /* 1 or 2 */
    int tags;
    int units; /* tags from here up are units (document 02, No. 3); as many as `tags` where the header does not say */
    int records;
    int pairs;
    int questions;
    long needed; /* the report room that is needed */
    struct record record[MOST_RECORDS + 1]; /* from 1 */
    struct pair pair[MOST_PAIRS + 1]; /* from 1 */
    struct question question[MOST_QUESTIONS];
};

/* Reads a job: refusals 1, 3 to 8, 11 to 13 and 17, or 0. The refusals 2 and 9 depend on what is lent: see below. */
void job_read(struct job *job, const unsigned char *bytes, size_t length);

/* The number that a run gives with these loans; its place is the job's place, or 0. */
int run_number(const struct job *job, long record_places, long work_places, long room);

/* The number that a recheck gives before it looks at the report. */
int recheck_number(const struct job *job, long record_places, long work_places);

int two_bytes(const unsigned char *at);

#endif
