/* Haltzurme from C and C++. Link with target/staticlib/libhaltzurme_c.a, which `.ci/build haltzurme_c` writes (x86-64); `./tagcheck --install DIR` copies both.
 *
 * All functions take any contents and any lengths, and answer one of the documents' numbers. After HALTZURME_LONG and HALTZURME_NARROW nothing lent has changed; after any
 * other answer the first HALTZURME_WORK numbers of the work table are zero and the rest is as it was.
 *
 * What C must see to, since no proof can:
 *   - No pointer is null, also where its length is 0, and each points to as many bytes or numbers as its length says.
 *   - `work` is aligned as a uint16_t is, `place`, `size` and `passes` as a size_t is. Bytes need no alignment.
 *   - What is written (the room, the work table, *place, *size, *passes) overlaps nothing else that is passed. The job and the report, which are only read, may overlap each other.
 * Nothing is kept between two calls, so that threads may call at the same time with tables of their own.
 *
 * Nothing checks these declarations against the Rattle source, crates/haltzurme_c/src/lib.rt, but compare/boundary, which runs both: keep them alike. */
#ifndef HALTZURME_H
#define HALTZURME_H

#include <stddef.h>
#include <stdint.h>

#ifdef __cplusplus
extern "C" {
#endif

/* The numbers of an answer, and the place of each. */
enum haltzurme_number {
    HALTZURME_ACCEPTED = 0, /* the job or the script is accepted; a recheck: the report is sound. Place 0 */
    HALTZURME_LONG = 1,     /* the job is longer than HALTZURME_LONGEST_JOB, or HALTZURME_LONGEST_SHEETED in edition 2; a script than HALTZURME_LONGEST_SCRIPT. Place 0 */
    HALTZURME_NARROW = 2,   /* the work table is shorter than HALTZURME_WORK; a script: or the room than HALTZURME_LONGEST_JOB. Place 0 */
    HALTZURME_SHORT = 3,    /* the job ends inside a field or before the end field. From here to 8: the field's first byte */
    HALTZURME_KIND = 4,     /* a kind unknown or out of its place; in the harness profile an HALTZURME_APPLICATION too */
    HALTZURME_LENGTH = 5,   /* a wrong length for the kind */
    HALTZURME_RANGE = 6,    /* N is 0 or above HALTZURME_MOST_TAGS, or U is above N */
    HALTZURME_MANY = 7,     /* a record, a pair that must differ or a question too many */
    HALTZURME_BEHIND = 8,   /* a byte behind the end field */
    HALTZURME_ROOM = 9,     /* a run, or the passes: the room is smaller than needed. Place 0 */
    HALTZURME_UNSOUND = 10, /* a recheck: the report is at fault. The first byte of the first field at fault */
    HALTZURME_FIRST_TAG = 11,  /* the first tag of a field is N or more. From here to 13: the tag's own first byte */
    HALTZURME_SECOND_TAG = 12, /* the second tag of a field is N or more */
    HALTZURME_THIRD_TAG = 13,  /* the third tag of a field is N or more */
    HALTZURME_SUBSET = 14,     /* a script: outside the subset, or it ends too soon. From here to 16: the first byte of the token, or the script's length */
    HALTZURME_NAME = 15,       /* a script: a name undeclared or declared twice, or a wrong number of arguments */
    HALTZURME_LIMIT = 16,      /* a script: above a limit of the job, of a name or of the depth */
    HALTZURME_SHEET = 17,      /* a sheet above HALTZURME_MOST_SHEET. The sheet's own first byte */
    HALTZURME_SPENT = 19       /* the passes: more than the limit change something. Place 0 */
};

/* The limits of the documents. */
enum haltzurme_limit {
    HALTZURME_MOST_TAGS = 1000,
    HALTZURME_MOST_RECORDS = 4000,
    HALTZURME_MOST_QUESTIONS = 1000,
    HALTZURME_MOST_PAIRS = 500,         /* that must differ */
    HALTZURME_MOST_SHEET = 9999,        /* 0 is no sheet */
    HALTZURME_LONGEST_JOB = 46510,      /* bytes, of edition 1; a script's job is lent as many */
    HALTZURME_LONGEST_SHEETED = 54510,  /* of edition 2, whose first byte is 0x11 */
    HALTZURME_LONGEST_SCRIPT = 60000,   /* bytes of a script */
    HALTZURME_LONGEST_REPORT = 8000007, /* bytes that are enough room for every job */
    HALTZURME_WORK = 32768,             /* numbers of the work table */
    HALTZURME_STACK = 81920             /* bytes of stack that a call may need, with a margin: bench/stack measures 40,680 on the deepest jobs */
};

/* The kinds of a field, of a job and of a report. */
enum haltzurme_kind {
    HALTZURME_TAGS = 0x10,
    HALTZURME_SHEETED = 0x11, /* the header of edition 2: every record has its sheet behind its tags */
    HALTZURME_EQUATION = 0x01,
    HALTZURME_APPLICATION = 0x02,
    HALTZURME_ASK = 0x03,
    HALTZURME_EXPLAIN = 0x04,
    HALTZURME_DIFFER = 0x05,
    HALTZURME_BROKEN = 0x06,
    HALTZURME_WHY = 0x07,
    HALTZURME_END = 0x7F,
    HALTZURME_LED = 0x83,
    HALTZURME_REASON = 0x84,
    HALTZURME_APART = 0x85,
    HALTZURME_BREACHED = 0x86,
    HALTZURME_INTACT = 0x87,
    HALTZURME_PARTED = 0x88,
    HALTZURME_JOINED = 0x89,
    HALTZURME_SHEETS = 0x8A, /* behind a reason of an edition 2 job */
    HALTZURME_TOTALS = 0x8F
};

/* Runs a job. On 0 the report stands at the front of the room and *size is its length; on a refusal the room is unchanged, *size is 0 and *place says where. */
uint8_t haltzurme_run(const uint8_t *job, size_t job_length, uint8_t *room, size_t room_length, uint16_t *work, size_t work_length, size_t *place, size_t *size);

/* Rechecks a report, which is not changed. On 10 *place is the first byte of the first field at fault. */
uint8_t haltzurme_recheck(const uint8_t *job, size_t job_length, const uint8_t *report, size_t report_length, uint16_t *work, size_t work_length, size_t *place);

/* Closes all records of a job by passes, at most `limit` of which may change something. On 0 *passes is their count, and the leader of every tag stands in order at the front of the
 * room, 2N bytes; on a refusal the room is unchanged and *passes is 0. The room must have 2N bytes (else HALTZURME_ROOM); questions need none. */
uint8_t haltzurme_passes(const uint8_t *job, size_t job_length, uint8_t *room, size_t room_length, uint16_t *work, size_t work_length, size_t limit, size_t *place, size_t *passes);

/* Makes at most `most` of these passes, for those who watch. On 0 *passes says how many were made (fewer than `most` only where no more change anything), and the room has the leader of
 * every tag by the classes after them; else as haltzurme_passes, without HALTZURME_SPENT. */
uint8_t haltzurme_watch(const uint8_t *job, size_t job_length, uint8_t *room, size_t room_length, uint16_t *work, size_t work_length, size_t most, size_t *place, size_t *passes);

/* Reads an SMT-LIB script. On 0 the job that it becomes stands at the front of the room and *size is its length; on a refusal the room is unchanged, *size is 0 and *place says
 * where. HALTZURME_LONG: the script is longer than HALTZURME_LONGEST_SCRIPT. HALTZURME_NARROW: the room is shorter than HALTZURME_LONGEST_JOB, or the work table too short.
 * The job is one of edition 1. */
uint8_t haltzurme_script(const uint8_t *script, size_t script_length, uint8_t *room, size_t room_length, uint16_t *work, size_t work_length, size_t *place, size_t *size);

/* haltzurme_run and haltzurme_recheck in the harness profile, for jobs of either edition whose records are all of kind 01: an HALTZURME_APPLICATION is refused by HALTZURME_KIND,
 * before its length is looked at, and a reason has the fewest records possible; of equally short ones it is the smallest by first differing record number. So a job has one sound
 * report. */
uint8_t haltzurme_harness_run(const uint8_t *job, size_t job_length, uint8_t *room, size_t room_length, uint16_t *work, size_t work_length, size_t *place, size_t *size);
uint8_t haltzurme_harness_recheck(const uint8_t *job, size_t job_length, const uint8_t *report, size_t report_length, uint16_t *work, size_t work_length, size_t *place);

#ifdef __cplusplus
}
#endif

#endif
