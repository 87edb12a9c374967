/* The answers of answers.h: the history of a job, the five points of a reason, reports and texts. Rests on answers.h. */
#include "answers.h"
#include "random.h"

#include <stdarg.h>
#include <stdio.h>
#include <stdlib.h>
#include <string.h>

/* One closure for the history, one for reasons: neither disturbs the other. */
static struct closure *in_order(void)
{
    static struct closure *only;
    if (only == NULL)
        only = closure_new();
    return only;
}

static struct closure *of_list(void)
{
    static struct closure *only;
    if (only == NULL)
        only = closure_new();
    return only;
}

/* ---- bytes ---- */

static void more(struct bytes *bytes, size_t wanted)
{
    if (bytes->length + wanted <= bytes->space)
        return;
    bytes->space = (bytes->length + wanted) * 2;
    bytes->at = realloc(bytes->at, bytes->space);
    if (bytes->at == NULL) {
        fprintf(stderr, "second: out of memory\n");
        exit(2);
    }
}

void byte_add(struct bytes *bytes, int byte)
{
    more(bytes, 1);
    bytes->at[bytes->length++] = (unsigned char)byte;
}

void number_add(struct bytes *bytes, int number)
{
    byte_add(bytes, number / 256);
    byte_add(bytes, number % 256);
}

void bytes_add(struct bytes *bytes, const unsigned char *from, size_t length)
{
    if (length == 0)
        return;
    more(bytes, length);
    memcpy(bytes->at + bytes->length, from, length);
    bytes->length += length;
}

void text_add(struct bytes *bytes, const char *format, ...)
{
    char line[128];
    va_list rest;
    va_start(rest, format);
    int length = vsnprintf(line, sizeof line, format, rest);
    va_end(rest);
    bytes_add(bytes, (const unsigned char *)line, (size_t)length);
}

/* ---- the history ---- */

enum way way_for(const struct job *job)
{
    return job->tags <= SMALL_TAGS && job->records <= SMALL_RECORDS ? LITERALLY : BY_USE_LISTS;
}

static int literal_smallest(const struct relation *relation, int s)
{
    int smallest = 0;
    while (!literal_same(relation, s, smallest))
        smallest++;
    return smallest;
}

/* Document 02, No. 3: the smallest unit in the class, or the smallest tag if it has no unit. */
static int literal_leader(const struct relation *relation, const struct job *job, int s)
{
    for (int x = job->units; x < job->tags; x++)
        if (literal_same(relation, s, x))
            return x;
    return literal_smallest(relation, s);
}

static int leader(const struct closure *closure, const struct job *job, int s)
{
    for (int x = job->units; x < job->tags; x++)
        if (closure_same(closure, s, x))
            return x;
    return closure_leader(closure, s);
}

static int literal_classes(const struct relation *relation, int tags)
{
    int classes = 0;
    for (int x = 0; x < tags; x++)
        classes += literal_smallest(relation, x) == x;
    return classes;
}

/* Document 02, No. 6: whether record k is idle by what `same` says of the records before it. An equation is if its two tags are
   equal, an application if any earlier one has all three equal; every earlier one is tried. */
static int is_idle(const struct job *job, int k, int (*same)(const void *state, int s, int t), const void *state)
{
    const struct record *r = &job->record[k];
    if (!r->apply)
        return same(state, r->a, r->b);
    for (int j = 1; j < k; j++) {
        const struct record *e = &job->record[j];
        if (e->apply && same(state, r->c, e->c) && same(state, r->a, e->a) && same(state, r->b, e->b))
            return 1;
    }
    return 0;
}

static int same_literally(const void *state, int s, int t)
{
    return literal_same(state, s, t);
}

static int same_by_use_lists(const void *state, int s, int t)
{
    return closure_same(state, s, t);
}

static void note_idle(struct history *history, int k, int idle, int joined_nothing)
{
    history->is_idle[k] = (unsigned char)idle;
    history->idle += idle;
    history->joined_nothing += joined_nothing;
}

static void asked(struct moment *m, const struct question *q)
{
    m->pair = 0;
    m->s = q->s;
    m->t = q->t;
}

static void found(struct moment *m, const struct job *job, int pair)
{
    m->pair = pair;
    m->s = job->pair[pair].a;
    m->t = job->pair[pair].b;
}

static void history_literally(struct history *history, const struct job *job)
{
    static struct relation after[LITERAL_RECORDS + 1]; /* after[k]: by the records 1 to k */
    int numbers[LITERAL_RECORDS + 1];
    for (int k = 0; k <= job->records; k++) {
        if (k > 0)
            numbers[k - 1] = k;
        literal_close(&after[k], job->tags, job->record, numbers, k);
    }
    for (int k = 1; k <= job->records; k++)
        note_idle(history, k, is_idle(job, k, same_literally, &after[k - 1]),
                  literal_classes(&after[k - 1], job->tags) == literal_classes(&after[k], job->tags));
    history->classes = literal_classes(&after[job->records], job->tags);
    for (int i = 0; i < job->questions; i++) {
        const struct question *q = &job->question[i];
        struct moment *m = &history->moment[i];
        asked(m, q);
        for (int k = 1; q->broken && m->pair == 0 && k <= q->pairs; k++)
            if (literal_same(&after[q->before], job->pair[k].a, job->pair[k].b))
                found(m, job, k);
        m->follows = q->broken ? m->pair > 0 : literal_same(&after[q->before], m->s, m->t);
        m->leader_s = literal_leader(&after[q->before], job, m->s);
        m->leader_t = literal_leader(&after[q->before], job, m->t);
        for (int x = 0; q->why && x < job->tags; x++)
            history->leaders[i][x] = (unsigned short)literal_leader(&after[q->before], job, x);
        m->classes = literal_classes(&after[q->before], job->tags);
        m->first = 0;
        if (m->follows)
            while (!literal_same(&after[m->first], m->s, m->t))
                m->first++;
    }
}

static void history_by_use_lists(struct history *history, const struct job *job)
{
    static unsigned short first[MOST_TAGS * MOST_TAGS];
    struct closure *closure = in_order();
    int k = 0;
    closure_start(closure, job->tags);
    closure_watch(closure, first, &k);
    for (int i = 0; i <= job->questions; i++) {
        int before = i < job->questions ? job->question[i].before : job->records;
        while (k < before) {
            int classes = closure_classes(closure), idle = is_idle(job, k + 1, same_by_use_lists, closure);
            k++;
            closure_add(closure, &job->record[k]);
            note_idle(history, k, idle, closure_classes(closure) == classes);
        }
        if (i == job->questions)
            break;
        const struct question *q = &job->question[i];
        struct moment *m = &history->moment[i];
        asked(m, q);
        for (int j = 1; q->broken && m->pair == 0 && j <= q->pairs; j++)
            if (closure_same(closure, job->pair[j].a, job->pair[j].b))
                found(m, job, j);
        m->follows = q->broken ? m->pair > 0 : closure_same(closure, m->s, m->t);
        m->leader_s = leader(closure, job, m->s);
        m->leader_t = leader(closure, job, m->t);
        for (int x = 0; q->why && x < job->tags; x++)
            history->leaders[i][x] = (unsigned short)leader(closure, job, x);
        m->first = m->follows && m->s != m->t ? first[m->s * job->tags + m->t] : 0;
        m->classes = closure_classes(closure);
    }
    history->classes = closure_classes(closure);
}

void history_of(struct history *history, const struct job *job, enum way way)
{
    if (way == LITERALLY && (job->tags > LITERAL_TAGS || job->records > LITERAL_RECORDS)) {
        fprintf(stderr, "second: this job is too large to be closed literally\n");
        exit(2);
    }
    history->way = way;
    history->classes = 0;
    history->idle = 0;
    history->joined_nothing = 0;
    if (way == LITERALLY)
        history_literally(history, job);
    else
        history_by_use_lists(history, job);
}

/* ---- reasons ---- */

static int entails_literally(const struct job *job, int s, int t, const int *numbers, int count, int without)
{
    struct relation relation;
    int kept[LITERAL_RECORDS];
    int n = 0;
    for (int i = 0; i < count; i++)
        if (i != without)
            kept[n++] = numbers[i];
    literal_close(&relation, job->tags, job->record, kept, n);
    return literal_same(&relation, s, t);
}

static void add_all(struct closure *closure, const struct job *job, const int *numbers, int from, int to)
{
    for (int i = from; i < to; i++)
        closure_add(closure, &job->record[numbers[i]]);
}

static int entails_by_use_lists(const struct job *job, int s, int t, const int *numbers, int count)
{
    closure_start(of_list(), job->tags);
    add_all(of_list(), job, numbers, 0, count);
    return closure_same(of_list(), s, t);
}

/* Whether none of numbers[from..to] can be spared, when all the others are in the closure: each half is tried with the other
   half put in. If the two are joined already, the whole part can be spared. */
static int none_spare(const struct job *job, int s, int t, const int *numbers, int from, int to)
{
    if (closure_same(of_list(), s, t))
        return 0;
    if (to - from == 1)
        return 1;
    int middle = from + (to - from) / 2;
    size_t mark = closure_mark(of_list());
    add_all(of_list(), job, numbers, middle, to);
    int left = none_spare(job, s, t, numbers, from, middle);
    closure_back(of_list(), mark);
    if (!left)
        return 0;
    add_all(of_list(), job, numbers, from, middle);
    int right = none_spare(job, s, t, numbers, middle, to);
    closure_back(of_list(), mark);
    return right;
}

static int some_spare(const struct job *job, enum way way, int s, int t, const int *numbers, int count)
{
    if (count == 0)
        return 0;
    if (way == BY_USE_LISTS) {
        closure_start(of_list(), job->tags);
        return !none_spare(job, s, t, numbers, 0, count);
    }
    for (int i = 0; i < count; i++)
        if (entails_literally(job, s, t, numbers, count, i))
            return 1;
    return 0;
}

int reason_fault(const struct job *job, const struct history *history, int question, const int *numbers, int count)
{
    const struct question *q = &job->question[question];
    const struct moment *m = &history->moment[question];
    for (int i = 0; i < count; i++)
        if (numbers[i] < 1 || numbers[i] > q->before || (i > 0 && numbers[i] <= numbers[i - 1]))
            return POINT_RISING;
    if (!(history->way == LITERALLY ? entails_literally(job, m->s, m->t, numbers, count, -1)
                                    : entails_by_use_lists(job, m->s, m->t, numbers, count)))
        return POINT_ENTAILS;
    if (m->s == m->t ? count != 0 : count == 0 || numbers[count - 1] != m->first)
        return POINT_LAST;
    if (some_spare(job, history->way, m->s, m->t, numbers, count))
        return POINT_SPARE;
    if (count > 2 * (job->tags - m->classes))
        return POINT_BOUND;
    return 0;
}

/* The records 1 to k in the order in which they are to be tried for leaving out. */
static void try_order(int *tried, int k, uint64_t order)
{
    for (int i = 0; i < k; i++)
        tried[i] = k - i;
    for (int i = k - 1; order != 0 && i > 0; i--) {
        int j = random_below(&order, i + 1);
        int kept = tried[i];
        tried[i] = tried[j];
        tried[j] = kept;
    }
}

static int find_literally(const struct job *job, int s, int t, int *numbers, int count)
{
    for (int i = 0; i < count;)
        if (entails_literally(job, s, t, numbers, count, i)) {
            memmove(numbers + i, numbers + i + 1, (size_t)(count - i - 1) * sizeof *numbers);
            count--;
        } else
            i++;
    return count;
}

/* Moves to the front of numbers[0..count] some that, with what is in the closure, join s and t and of which none can be spared.
   All of them together do. The second half is searched with the first put in, then the first with what was found. */
static int find_by_halves(const struct job *job, int s, int t, int *numbers, int count)
{
    if (closure_same(of_list(), s, t))
        return 0;
    if (count == 1)
        return 1;
    int half = count / 2;
    size_t mark = closure_mark(of_list());
    add_all(of_list(), job, numbers, 0, half);
    int right = find_by_halves(job, s, t, numbers + half, count - half);
    closure_back(of_list(), mark);
    add_all(of_list(), job, numbers, half, half + right);
    int left = find_by_halves(job, s, t, numbers, half);
    closure_back(of_list(), mark);
    memmove(numbers + left, numbers + half, (size_t)right * sizeof *numbers);
    return left + right;
}

static int by_number(const void *one, const void *other)
{
    return *(const int *)one - *(const int *)other;
}

int reason_find(const struct job *job, const struct history *history, int question, uint64_t order, int *numbers)
{
    const struct moment *m = &history->moment[question];
    int count = m->first;
    if (m->s == m->t)
        return 0;
    try_order(numbers, count, order);
    if (history->way == LITERALLY)
        count = find_literally(job, m->s, m->t, numbers, count);
    else {
        closure_start(of_list(), job->tags);
        count = find_by_halves(job, m->s, m->t, numbers, count);
    }
    qsort(numbers, (size_t)count, sizeof *numbers, by_number);
    return count;
}

/* ---- reports ---- */

static void field_add(struct bytes *out, int kind, const int *numbers, int count)
{
    byte_add(out, kind);
    number_add(out, 2 * count);
    for (int i = 0; i < count; i++)
        number_add(out, numbers[i]);
}

/* Document 02, No. 9: the distinct sheets of a list of records, rising, without 0. Gives the count. */
static int sheets_of(const struct job *job, const int *numbers, int count, int *sheets)
{
    char there[MOST_SHEET + 1] = {0};
    int found = 0;
    for (int i = 0; i < count; i++)
        there[job->record[numbers[i]].sheet] = 1;
    for (int sheet = 1; sheet <= MOST_SHEET; sheet++)
        if (there[sheet])
            sheets[found++] = sheet;
    return found;
}

/* 8A behind an 84 or 86, in edition 2. */
static void sheets_add(struct bytes *out, const struct job *job, const int *numbers, int count)
{
    int sheets[MOST_RECORDS];
    if (job->edition == 2)
        field_add(out, KIND_SHEETS, sheets, sheets_of(job, numbers, count, sheets));
}

/* Document 02, No. 7: the leader of every tag in order, or no body where the equality follows. */
static void why_add(struct bytes *out, const struct job *job, const struct history *history, int question)
{
    int numbers[MOST_TAGS];
    for (int x = 0; x < job->tags; x++)
        numbers[x] = history->leaders[question][x];
    if (history->moment[question].follows)
        field_add(out, KIND_EQUALS, NULL, 0);
    else
        field_add(out, KIND_APART, numbers, job->tags);
}

void report_write(const struct job *job, const struct history *history, uint64_t order, struct bytes *out)
{
    int numbers[MOST_RECORDS + 1];
    for (int i = 0; i < job->questions; i++) {
        const struct moment *m = &history->moment[i];
        if (job->question[i].broken && m->pair > 0) {
            numbers[0] = m->pair;
            int count = reason_find(job, history, i, order, numbers + 1);
            field_add(out, KIND_BREACH, numbers, 1 + count);
            sheets_add(out, job, numbers + 1, count);
        } else if (job->question[i].broken)
            field_add(out, KIND_WHOLE, NULL, 0);
        else if (job->question[i].why)
            why_add(out, job, history, i);
        else if (!job->question[i].explain)
            field_add(out, KIND_LEADERS, (int[]){m->leader_s, m->leader_t}, 2);
        else if (m->follows) {
            int count = reason_find(job, history, i, order, numbers);
            field_add(out, KIND_REASON, numbers, count);
            sheets_add(out, job, numbers, count);
        } else
            field_add(out, KIND_NOT, NULL, 0);
    }
    field_add(out, KIND_TOTALS, (int[]){history->classes, history->idle}, 2);
}

/* The length of the field at the front of the report if it is right, otherwise 0. Question number `questions` is the totals. */
static size_t right_field(const struct job *job, const struct history *history, int question, const unsigned char *field,
                          size_t length)
{
    int numbers[32768];
    if (length < 3)
        return 0;
    int kind = field[0], body = two_bytes(field + 1), count = body / 2;
    if (body % 2 != 0 || length - 3 < (size_t)body)
        return 0;
    for (int i = 0; i < count; i++)
        numbers[i] = two_bytes(field + 3 + 2 * i);
    size_t whole = 3 + (size_t)body;
    if (question == job->questions) {
        int right = kind == KIND_TOTALS && count == 2 && numbers[0] == history->classes && numbers[1] == history->idle;
        return right ? whole : 0;
    }
    const struct moment *m = &history->moment[question];
    if (job->question[question].broken) {
        int right = m->pair == 0 ? kind == KIND_WHOLE && count == 0
                                 : kind == KIND_BREACH && count > 0 && numbers[0] == m->pair &&
                                       reason_fault(job, history, question, numbers + 1, count - 1) == 0;
        return right ? whole : 0;
    }
    if (job->question[question].why) {
        struct bytes right = {0};
        why_add(&right, job, history, question);
        int same = right.length == whole && memcmp(right.at, field, whole) == 0;
        free(right.at);
        return same ? whole : 0;
    }
    if (!job->question[question].explain) {
        int right = kind == KIND_LEADERS && count == 2 && numbers[0] == m->leader_s && numbers[1] == m->leader_t;
        return right ? whole : 0;
    }
    if (!m->follows)
        return kind == KIND_NOT && count == 0 ? whole : 0;
    return kind == KIND_REASON && reason_fault(job, history, question, numbers, count) == 0 ? whole : 0;
}

/* The bytes that must stand behind a right field: an 8A behind an 84 or 86 of edition 2, otherwise none. */
static void behind_field(const struct job *job, const unsigned char *field, struct bytes *out)
{
    int numbers[MOST_RECORDS + 1], count = two_bytes(field + 1) / 2, breach = field[0] == KIND_BREACH;
    if (!breach && field[0] != KIND_REASON)
        return;
    for (int i = breach; i < count; i++)
        numbers[i - breach] = two_bytes(field + 3 + 2 * i);
    sheets_add(out, job, numbers, count - breach);
}

int report_judge(const struct job *job, const struct history *history, const unsigned char *report, size_t length, long *place)
{
    size_t at = 0;
    for (int i = 0; i <= job->questions; i++) {
        size_t field = right_field(job, history, i, report + at, length - at);
        if (field == 0) {
            *place = (long)at;
            return 10;
        }
        struct bytes next = {0};
        behind_field(job, report + at, &next);
        at += field;
        int missing = length - at < next.length || (next.length > 0 && memcmp(report + at, next.at, next.length) != 0);
        if (!missing)
            at += next.length;
        free(next.at);
        if (missing) {
            *place = (long)at;
            return 10;
        }
    }
    *place = at < length ? (long)at : 0;
    return at < length ? 10 : 0;
}

/* ---- lines ---- */

/* The line H behind an E or C line, in edition 2: how many sheets, and which. */
static void sheets_line(const struct job *job, const int *numbers, int count, struct bytes *out)
{
    int sheets[MOST_RECORDS], found = sheets_of(job, numbers, count, sheets);
    if (job->edition != 2)
        return;
    text_add(out, "H %d", found);
    for (int i = 0; i < found; i++)
        text_add(out, " %d", sheets[i]);
    text_add(out, "\n");
}

static void line_write(const struct job *job, const struct history *history, int i, struct bytes *out)
{
    int numbers[MOST_RECORDS];
    const struct question *q = &job->question[i];
    const struct moment *m = &history->moment[i];
    if (q->broken && m->pair == 0) {
        text_add(out, "K\n");
        return;
    }
    if (q->why) {
        text_add(out, "%c %d %d", m->follows ? 'Y' : 'W', q->s, q->t);
        for (int x = 0; !m->follows && x < job->tags; x++)
            text_add(out, " %d", history->leaders[i][x]);
        text_add(out, "\n");
        return;
    }
    if (!q->broken && !q->explain) {
        if (m->follows)
            text_add(out, "S %d %d %d\n", q->s, q->t, m->leader_s);
        else
            text_add(out, "D %d %d %d %d\n", q->s, q->t, m->leader_s, m->leader_t);
        return;
    }
    if (!m->follows) {
        text_add(out, "N %d %d\n", q->s, q->t);
        return;
    }
    int count = reason_find(job, history, i, 0, numbers);
    if (q->broken)
        text_add(out, "C %d %d", m->pair, count);
    else
        text_add(out, "E %d %d %d", q->s, q->t, count);
    for (int j = 0; j < count; j++)
        text_add(out, " %d", numbers[j]);
    text_add(out, "\n");
    sheets_line(job, numbers, count, out);
}

static int refused(const struct job *job, struct bytes *out)
{
    int number = run_number(job, RECORD_PLACES, WORK_PLACES, LENT_ROOM);
    if (number == 0)
        return 0;
    text_add(out, "R %d %ld\n", number, number == job->number ? job->place : 0L);
    return 1;
}

void lines_write(const struct job *job, const struct history *history, struct bytes *out)
{
    if (refused(job, out))
        return;
    for (int i = 0; i < job->questions; i++)
        line_write(job, history, i, out);
    text_add(out, "T %d %d\n", history->classes, history->idle);
}

/* Reads a number as the program writes it: digits, no leading zero. Gives -1 where there is none. */
static long take_number(const char **at, const char *end)
{
    long value = 0;
    const char *from = *at;
    while (*at < end && **at >= '0' && **at <= '9' && *at - from < 6)
        value = value * 10 + (*(*at)++ - '0');
    return *at == from || (*at - from > 1 && *from == '0') ? -1 : value;
}

/* What is wrong with a line `E s t k n1 .. nk` or `C n k n1 .. nk` (without its end), or NULL; `behind` gets the line that must follow it, or nothing. */
static const char *reason_line_fault(const struct job *job, const struct history *history, int question, const char *at,
                                     const char *end, struct bytes *behind)
{
    static const char *const points[] = {NULL,
                                         "the numbers do not rise or do not stand before the question",
                                         "the list does not entail the equality",
                                         "the last number is not the first k, or a tag and itself have a list",
                                         "a record can be spared",
                                         "more than 2(N-C) numbers"};
    const struct question *q = &job->question[question];
    int numbers[MOST_RECORDS];
    char front[64];
    int length = q->broken ? snprintf(front, sizeof front, "C %d ", history->moment[question].pair)
                           : snprintf(front, sizeof front, "E %d %d ", q->s, q->t);
    if (end - at < length || memcmp(at, front, (size_t)length) != 0)
        return q->broken ? "a C line with the earliest broken pair is expected" : "an E line with this question's tags is expected";
    at += length;
    long count = take_number(&at, end);
    if (count < 0 || count > MOST_RECORDS)
        return "the count is no count";
    for (long i = 0; i < count; i++) {
        if (at == end || *at++ != ' ')
            return "fewer numbers than the count says";
        long number = take_number(&at, end);
        if (number < 0)
            return "a number is expected";
        numbers[i] = (int)number;
    }
    if (at != end)
        return "more on the line than the count says";
    int fault = reason_fault(job, history, question, numbers, (int)count);
    if (fault == 0)
        sheets_line(job, numbers, (int)count, behind);
    return points[fault];
}

static const char *line_fault(const struct job *job, const struct history *history, int i, const char *at, const char *end,
                              struct bytes *behind)
{
    if (i < job->questions && (job->question[i].explain || job->question[i].broken) && history->moment[i].follows)
        return reason_line_fault(job, history, i, at, end - 1, behind);
    struct bytes right = {0};
    if (i < job->questions)
        line_write(job, history, i, &right);
    else
        text_add(&right, "T %d %d\n", history->classes, history->idle);
    int same = right.length == (size_t)(end - at) && memcmp(right.at, at, right.length) == 0;
    free(right.at);
    return same ? NULL : "another line is expected";
}

long text_judge(const struct job *job, const struct history *history, const char *text, size_t length, const char **what)
{
    const char *at = text, *all = text + length;
    struct bytes right = {0};
    if (refused(job, &right)) {
        int same = right.length == length && memcmp(right.at, text, length) == 0;
        free(right.at);
        *what = same ? NULL : "another refusal is expected";
        return same ? 0 : 1;
    }
    long line = 1;
    for (int i = 0; i <= job->questions; i++, line++) {
        struct bytes behind = {0};
        const char *end = at == all ? NULL : memchr(at, '\n', (size_t)(all - at));
        *what = end == NULL ? "the line is missing or has no end" : line_fault(job, history, i, at, end + 1, &behind);
        if (*what == NULL && behind.length > 0) {
            line++;
            at = end + 1;
            end = at + behind.length - 1;
            if ((size_t)(all - at) < behind.length || memcmp(at, behind.at, behind.length) != 0)
                *what = "an H line with the sheets of the reason before it is expected";
        }
        free(behind.at);
        if (*what != NULL)
            return line;
        at = end + 1;
    }
    *what = at == all ? NULL : "more lines than expected";
    return at == all ? 0 : line;
}
