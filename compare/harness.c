/* The second program for plain harness sheets, from documents 01 and 02 (No. 8 and 9) alone: the reason is found by trying all lists of records, the short ones first and the
   equally short ones in the order of their first differing number. It shares nothing with the tool; leaders, pairs and totals are those of answers.h.

     harness make SEED          a small random job of either edition: records of kind 01, questions of every kind, at times an 02 or damage
     harness lines JOB          the lines that tagharness must write
     harness report JOB         the report that it must write; nothing if the job is refused
     harness verdict JOB REPORT `number place`, as its recheck must answer
     harness damage SEED REPORT the report with a byte changed, cut off, put in or put behind

   JOB and REPORT are files. Status 0, or 2 where it cannot be done. */
#include "answers.h"
#include "random.h"

#include <stdio.h>
#include <stdlib.h>
#include <string.h>

enum { MOST_TRIED = 20 }; /* records of a job whose lists are all tried */

static struct job job;
static struct history history;
static struct bytes input, given, own;
static size_t field_at[2 * MOST_QUESTIONS + 2]; /* where each field of the own report begins */
static int fields;

static void read_file(const char *name, struct bytes *out)
{
    int byte;
    FILE *file = fopen(name, "rb");
    if (file == NULL)
        exit(2);
    while ((byte = getc(file)) != EOF)
        byte_add(out, byte);
    fclose(file);
}

/* "Refusals: 4 for kind 02 here": in 4's place in document 01's order, before the field's length. */
static void refuse_applications(void)
{
    if (job.number == 1)
        return;
    for (size_t at = 0; input.length - at >= 3;) {
        size_t behind = at + 3 + (size_t)two_bytes(input.at + at + 1);
        if (at > 0 && input.at[at] == KIND_APPLY) {
            job.number = 4;
            job.place = (long)at;
            return;
        }
        int last = input.at[at] == KIND_END;
        int refused_here = job.number != 0 && (size_t)job.place >= at && ((size_t)job.place < behind || behind > input.length);
        if (last || refused_here || behind > input.length)
            return;
        at = behind;
    }
}

static void read_job(const char *name)
{
    read_file(name, &input);
    job_read(&job, input.at, input.length);
    refuse_applications();
    if (job.number == 0 && job.needed > LENT_ROOM)
        job.number = 9;
    if (job.number == 0)
        history_of(&history, &job, way_for(&job));
}

static int top[MOST_TAGS];
static int top_of(int x)
{
    while (top[x] != x)
        x = top[x];
    return x;
}

static int entails(const int *list, int count, int s, int t)
{
    for (int x = 0; x < job.tags; x++)
        top[x] = x;
    for (int i = 0; i < count; i++)
        top[top_of(job.record[list[i]].a)] = top_of(job.record[list[i]].b);
    return top_of(s) == top_of(t);
}

/* The lists of `count` numbers from `from` up to `most` behind those chosen, in the order of their first differing number. */
static int try_lists(int *list, int chosen, int count, int from, int most, int s, int t)
{
    if (chosen == count)
        return entails(list, count, s, t);
    for (list[chosen] = from; list[chosen] <= most; list[chosen]++)
        if (try_lists(list, chosen + 1, count, list[chosen] + 1, most, s, t))
            return 1;
    return 0;
}

static int reason(int *list, int before, int s, int t)
{
    if (before > MOST_TRIED)
        exit(2);
    for (int count = 0; count <= before; count++)
        if (try_lists(list, 0, count, 1, before, s, t))
            return count;
    return -1;
}

static void front(int kind, int length)
{
    field_at[fields++] = own.length;
    byte_add(&own, kind);
    number_add(&own, length);
}

static void write_list(int lines, const char *letter, int kind, int lead, int s, int t, const int *list, int count)
{
    if (lines) {
        if (lead > 0)
            printf("%s %d %d", letter, lead, count);
        else
            printf("%s %d %d %d", letter, s, t, count);
        for (int i = 0; i < count; i++)
            printf(" %d", list[i]);
        printf("\n");
        return;
    }
    front(kind, 2 * count + (lead > 0 ? 2 : 0));
    if (lead > 0)
        number_add(&own, lead);
    for (int i = 0; i < count; i++)
        number_add(&own, list[i]);
}

/* Edition 2: "the distinct sheets of that reason, rising, without 0". */
static void write_sheets(int lines, const int *list, int count)
{
    int sheet[MOST_TRIED + 1], sheets = 0;
    if (job.edition != 2)
        return;
    for (int h = 1; h <= MOST_SHEET; h++) {
        int used = 0;
        for (int i = 0; i < count; i++)
            used |= job.record[list[i]].sheet == h;
        if (used)
            sheet[sheets++] = h;
    }
    if (lines)
        printf("H %d", sheets);
    else
        front(KIND_SHEETS, 2 * sheets);
    for (int i = 0; i < sheets; i++) {
        if (lines)
            printf(" %d", sheet[i]);
        else
            number_add(&own, sheet[i]);
    }
    if (lines)
        printf("\n");
}

static void answer(int lines)
{
    int list[MOST_TRIED + 1];
    for (int i = 0; i < job.questions; i++) {
        const struct question *q = &job.question[i];
        const struct moment *m = &history.moment[i];
        int s = q->s, t = q->t;
        if (q->explain || (q->broken && m->pair > 0)) {
            int count = q->broken ? reason(list, q->before, m->s, m->t) : reason(list, q->before, s, t);
            if (count >= 0) {
                write_list(lines, q->broken ? "C" : "E", q->broken ? KIND_BREACH : KIND_REASON, q->broken ? m->pair : 0, s, t, list, count);
                write_sheets(lines, list, count);
            } else if (lines)
                printf("N %d %d\n", s, t);
            else
                front(KIND_NOT, 0);
        } else if (q->broken) {
            if (lines)
                printf("K\n");
            else
                front(KIND_WHOLE, 0);
        } else if (q->why && m->follows) {
            if (lines)
                printf("Y %d %d\n", s, t);
            else
                front(KIND_EQUALS, 0);
        } else if (q->why) {
            if (lines)
                printf("W %d %d", s, t);
            else
                front(KIND_APART, 2 * job.tags);
            for (int x = 0; x < job.tags; x++) {
                if (lines)
                    printf(" %d", history.leaders[i][x]);
                else
                    number_add(&own, history.leaders[i][x]);
            }
            if (lines)
                printf("\n");
        } else if (lines) {
            if (m->leader_s == m->leader_t)
                printf("S %d %d %d\n", s, t, m->leader_s);
            else
                printf("D %d %d %d %d\n", s, t, m->leader_s, m->leader_t);
        } else {
            front(KIND_LEADERS, 4);
            number_add(&own, m->leader_s);
            number_add(&own, m->leader_t);
        }
    }
    if (lines) {
        printf("T %d %d\n", history.classes, history.idle);
        return;
    }
    front(KIND_TOTALS, 4);
    number_add(&own, history.classes);
    number_add(&own, history.idle);
    field_at[fields] = own.length;
}

/* There is one sound report: the first field that differs from it is at fault, and so is what stands behind it. */
static void verdict(void)
{
    if (job.number != 0 && job.number != 9) {
        printf("%d %ld\n", job.number, job.place);
        return;
    }
    if (job.number == 9)
        exit(2);
    answer(0);
    for (int i = 0; i < fields; i++)
        if (given.length < field_at[i + 1] || memcmp(given.at + field_at[i], own.at + field_at[i], field_at[i + 1] - field_at[i]) != 0) {
            printf("10 %zu\n", field_at[i]);
            return;
        }
    if (given.length > own.length)
        printf("10 %zu\n", own.length);
    else
        printf("0 0\n");
}

static void put_field(int kind, int numbers, const int *number)
{
    byte_add(&own, kind);
    number_add(&own, 2 * numbers);
    for (int i = 0; i < numbers; i++)
        number_add(&own, number[i]);
}

static void make(uint64_t seed)
{
    int tags = 1 + random_below(&seed, 7), records = 0, two[4];
    two[0] = tags;
    two[1] = random_below(&seed, tags + 1);
    int sheeted = random_below(&seed, 2);
    if (sheeted)
        put_field(KIND_SHEETED, 2, two);
    else
        put_field(KIND_TAGS, 1 + random_below(&seed, 2), two);
    int wrong = random_below(&seed, 12);
    for (int left = 4 + random_below(&seed, 24); left > 0; left--) {
        for (int i = 0; i < 3; i++)
            two[i] = random_below(&seed, tags);
        int kind = random_below(&seed, 10);
        if (wrong == 0 && random_below(&seed, 12) == 0)
            put_field(KIND_APPLY, random_below(&seed, 4), two);
        else if (kind < 5 && records < 13) {
            two[2] = random_below(&seed, 5) * (random_below(&seed, 3) + 1);
            put_field(KIND_EQUAL, 2 + sheeted, two);
            records++;
        } else if (kind == 5)
            put_field(KIND_ASK, 2, two);
        else if (kind == 6)
            put_field(KIND_DIFFER, 2, two);
        else if (kind == 7)
            put_field(KIND_BROKEN, 0, two);
        else if (kind == 8)
            put_field(KIND_WHY, 2, two);
        else
            put_field(KIND_EXPLAIN, 2, two);
    }
    put_field(KIND_END, 0, two);
    if (wrong == 1)
        own.at[random_below(&seed, (int)own.length)] ^= (unsigned char)(1 + random_below(&seed, 7));
    if (wrong == 2)
        own.length = (size_t)random_below(&seed, (int)own.length);
    fwrite(own.at, 1, own.length, stdout);
}

static void damage(uint64_t seed)
{
    size_t at = given.length > 0 ? (size_t)random_below(&seed, (int)given.length) : 0;
    switch (given.length > 0 ? random_below(&seed, 4) : 3) {
    case 0:
        given.at[at] ^= (unsigned char)(1 + random_below(&seed, 7));
        break;
    case 1:
        given.length = at;
        break;
    case 2:
        byte_add(&given, 0);
        memmove(given.at + at + 1, given.at + at, given.length - at - 1);
        break;
    default:
        byte_add(&given, 0);
    }
    fwrite(given.at, 1, given.length, stdout);
}

int main(int count, char **word)
{
    if (count == 3 && strcmp(word[1], "make") == 0)
        make(strtoull(word[2], NULL, 10));
    else if (count == 4 && strcmp(word[1], "damage") == 0) {
        read_file(word[3], &given);
        damage(strtoull(word[2], NULL, 10));
    } else if (count == 3 && strcmp(word[1], "lines") == 0) {
        read_job(word[2]);
        if (job.number != 0)
            printf("R %d %ld\n", job.number, job.number == 9 ? 0 : job.place);
        else
            answer(1);
    } else if (count == 3 && strcmp(word[1], "report") == 0) {
        read_job(word[2]);
        if (job.number == 0)
            answer(0);
        fwrite(own.at, 1, own.length, stdout);
    } else if (count == 4 && strcmp(word[1], "verdict") == 0) {
        read_job(word[2]);
        read_file(word[3], &given);
        verdict();
    } else {
        fprintf(stderr, "harness: its head says how it is called\n");
        return 2;
    }
    return 0;
}
