/* What the answers to a job must be (document 01, "Tags, records, following", "Reasons", and document 02, No. 1, on tags that must
   differ, No. 6, on idle records, and No. 9, on sheets), the judge of reports and texts, and answers of this program's own. Rests on job.h and closure.h. */
#ifndef ANSWERS_H
#define ANSWERS_H

#include "closure.h"

/* Which of the two closures is used: literally is possible up to LITERAL_TAGS and LITERAL_RECORDS only. */
enum way { LITERALLY, BY_USE_LISTS };

/* A job with no more than these is small: it is always judged literally. */
enum { SMALL_TAGS = 16, SMALL_RECORDS = 64 };

/* What holds at a question. `first` is the first k such that the equality follows from records 1 to k; 0 if it does not
   follow or if s and t are the same number. At a 06 `pair` is the number of the earliest broken pair, or 0, s and t are its tags,
   and `follows` says that there is one. */
struct moment {
    int pair, s, t;
    int follows;
    int leader_s, leader_t;
    int first;
    int classes; /* by the records before the question */
};

struct history {
    enum way way;
    struct moment moment[MOST_QUESTIONS];
    unsigned short leaders[MOST_QUESTIONS][MOST_TAGS]; /* of a why: the leader of every tag */
    int classes, idle;
    int joined_nothing;                    /* the records after which there are as many classes as before: no idle count (No. 6) */
    unsigned char is_idle[MOST_RECORDS + 1]; /* by record number */
};

/* Literally for a small job, by use lists for another. */
enum way way_for(const struct job *job);

/* The history of a job that was not refused. */
void history_of(struct history *history, const struct job *job, enum way way);

/* The points of a reason. 0 if all hold, otherwise the number of the first that does not. */
enum {
    POINT_RISING = 1, /* rising, each at least 1 and before the question */
    POINT_ENTAILS,
    POINT_LAST,       /* empty for a tag and itself, otherwise the last is the first k */
    POINT_SPARE,      /* none can be spared */
    POINT_BOUND       /* at most 2(N-C), with C the classes at the question (document 02, No. 13) */
};
int reason_fault(const struct job *job, const struct history *history, int question, const int *numbers, int count);

/* Bytes that grow. */
struct bytes {
    unsigned char *at;
    size_t length, space;
};
void byte_add(struct bytes *bytes, int byte);
void number_add(struct bytes *bytes, int number); /* two bytes */
void text_add(struct bytes *bytes, const char *format, ...) __attribute__((format(printf, 2, 3)));
void bytes_add(struct bytes *bytes, const unsigned char *from, size_t length);

/* A reason of this program's own for a question whose equality follows: the records 1 to k without those that can be left
   out, tried in an order that `order` picks (0: from the last to the first). Gives the count. */
int reason_find(const struct job *job, const struct history *history, int question, uint64_t order, int *numbers);

/* A right report, and the right lines, with reasons of this program's own. */
void report_write(const struct job *job, const struct history *history, uint64_t order, struct bytes *out);
void lines_write(const struct job *job, const struct history *history, struct bytes *out);

/* The recheck of a report for a job that was not refused: 0, or 10 with the first byte of the first field at fault. */
int report_judge(const struct job *job, const struct history *history, const unsigned char *report, size_t length,
                 long *place);

/* Judges the whole text that tagcheck wrote: 0 if right, otherwise the number of the first wrong line, from 1, with a word
   on what is wrong. */
long text_judge(const struct job *job, const struct history *history, const char *text, size_t length, const char **what);

#endif
