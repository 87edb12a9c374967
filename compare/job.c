/* Reading a job front to back, one field at a time, in document 01's order of checks; document 02, No. 1 for kinds 05 and 06, No. 2 for the tags, No. 9 for edition 2. Rests on job.h only. */
#include "job.h"

int two_bytes(const unsigned char *at)
{
    return at[0] * 256 + at[1];
}

/* The bytes of a body of edition 1; in edition 2 a record has two more, its sheet. */
static int body_length(int kind)
{
    switch (kind) {
    case KIND_TAGS:
        return 2;
    case KIND_EQUAL:
    case KIND_ASK:
    case KIND_EXPLAIN:
    case KIND_DIFFER:
    case KIND_WHY:
    case KIND_SHEETED:
        return 4;
    case KIND_APPLY:
        return 6;
    case KIND_BROKEN:
    case KIND_END:
        return 0;
    default:
        return -1;
    }
}

static int in_its_place(int kind, int first)
{
    int header = kind == KIND_TAGS || kind == KIND_SHEETED;
    return first ? header : !header && body_length(kind) >= 0;
}

static int too_many(const struct job *job, int kind)
{
    switch (kind) {
    case KIND_EQUAL:
    case KIND_APPLY:
        return job->records == MOST_RECORDS;
    case KIND_DIFFER:
        return job->pairs == MOST_PAIRS;
    case KIND_ASK:
    case KIND_EXPLAIN:
    case KIND_BROKEN:
    case KIND_WHY:
        return job->questions == MOST_QUESTIONS;
    default:
        return 0;
    }
}

static int has_sheet(const struct job *job, int kind)
{
    return job->edition == 2 && (kind == KIND_EQUAL || kind == KIND_APPLY);
}

/* Document 02, No. 3: a header has N, or N and U; No. 9: that of edition 2 has both. */
static int length_fits(const struct job *job, int kind, int length)
{
    return length == body_length(kind) + 2 * has_sheet(job, kind) || (kind == KIND_TAGS && length == 4);
}

static int header_in_range(const unsigned char *body, int length)
{
    return two_bytes(body) >= 1 && two_bytes(body) <= MOST_TAGS && (length == 2 || two_bytes(body + 2) <= two_bytes(body));
}

/* Which number of the body is a tag of N or more, counted from 0; of several the first. -1 if there is none. */
static int wrong_tag(const struct job *job, int kind, const unsigned char *body)
{
    for (int i = 0; i < body_length(kind) / 2; i++)
        if (two_bytes(body + 2 * i) >= job->tags)
            return i;
    return -1;
}

/* The first check that the field at `at` fails, in document 01's order, or 0; `place` is where it fails. */
static int field_refusal(const struct job *job, const unsigned char *bytes, size_t length, size_t at, size_t *place)
{
    *place = at;
    if (length - at < 3)
        return 3;
    int kind = bytes[at];
    const unsigned char *body = bytes + at + 3;
    if (!in_its_place(kind, at == 0))
        return 4;
    int stated = two_bytes(bytes + at + 1);
    if (!length_fits(job, kind, stated))
        return 5;
    if (length - at - 3 < (size_t)stated)
        return 3;
    if (too_many(job, kind))
        return 7;
    if (kind == KIND_TAGS || kind == KIND_SHEETED)
        return header_in_range(body, stated) ? 0 : 6;
    int wrong = wrong_tag(job, kind, body);
    if (wrong >= 0) {
        *place = at + 3 + 2 * (size_t)wrong;
        return 11 + wrong;
    }
    if (has_sheet(job, kind) && two_bytes(body + stated - 2) > MOST_SHEET) {
        *place = at + 3 + (size_t)stated - 2;
        return 17;
    }
    return 0;
}

static void take_record(struct job *job, int kind, const unsigned char *body)
{
    struct record *r = &job->record[++job->records];
    r->apply = kind == KIND_APPLY;
    r->a = two_bytes(body);
    r->b = two_bytes(body + 2);
    r->c = r->apply ? two_bytes(body + 4) : 0;
    r->sheet = job->edition == 2 ? two_bytes(body + body_length(kind)) : 0;
}

static void take_pair(struct job *job, const unsigned char *body)
{
    struct pair *pair = &job->pair[++job->pairs];
    pair->a = two_bytes(body);
    pair->b = two_bytes(body + 2);
}

static void take_question(struct job *job, int kind, const unsigned char *body)
{
    struct question *q = &job->question[job->questions++];
    q->explain = kind == KIND_EXPLAIN;
    q->broken = kind == KIND_BROKEN;
    q->why = kind == KIND_WHY;
    q->s = q->broken ? 0 : two_bytes(body);
    q->t = q->broken ? 0 : two_bytes(body + 2);
    q->before = job->records;
    q->pairs = job->pairs;
    long bound = 2L * (job->tags - 1);
    long most = job->records < bound ? job->records : bound;
    if (job->edition == 2 && (q->broken || q->explain))
        job->needed += 3 + 2 * most;
    job->needed += q->broken ? 5 + 2 * most : q->why ? 3 + 2L * job->tags : q->explain ? 3 + 2 * most : 7;
}

void job_read(struct job *job, const unsigned char *bytes, size_t length)
{
    job->number = 0;
    job->place = 0;
    job->edition = length > 0 && bytes[0] == KIND_SHEETED ? 2 : 1;
    job->tags = 0;
    job->units = 0;
    job->records = 0;
    job->pairs = 0;
    job->questions = 0;
    job->needed = 7;
    if (length > (job->edition == 2 ? LONGEST_SHEETED : LONGEST_JOB)) {
        job->number = 1;
        return;
    }
    for (size_t at = 0;;) {
        size_t place;
        int refusal = field_refusal(job, bytes, length, at, &place);
        if (refusal != 0) {
            job->number = refusal;
            job->place = (long)place;
            return;
        }
        int kind = bytes[at];
        const unsigned char *body = bytes + at + 3;
        int stated = two_bytes(bytes + at + 1);
        at += 3 + (size_t)stated;
        if (kind == KIND_TAGS || kind == KIND_SHEETED) {
            job->tags = two_bytes(body);
            job->units = stated == 4 ? two_bytes(body + 2) : job->tags;
        } else if (kind == KIND_EQUAL || kind == KIND_APPLY)
            take_record(job, kind, body);
        else if (kind == KIND_DIFFER)
            take_pair(job, body);
        else if (kind == KIND_ASK || kind == KIND_EXPLAIN || kind == KIND_BROKEN || kind == KIND_WHY)
            take_question(job, kind, body);
        else if (at < length) {
            job->number = 8;
            job->place = (long)at;
            return;
        } else
            return;
    }
}

int recheck_number(const struct job *job, long record_places, long work_places)
{
    if (job->number == 1)
        return 1;
    if (record_places < RECORD_PLACES || work_places < WORK_PLACES)
        return 2;
    return job->number;
}

int run_number(const struct job *job, long record_places, long work_places, long room)
{
    int number = recheck_number(job, record_places, work_places);
    return number == 0 && room < job->needed ? 9 : number;
}
