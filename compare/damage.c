/* The damaged reports of damage.h: cuts, changed bytes, spare bytes, and for each kind of field what document 01 shuts out.
   Rests on damage.h. */
#include "damage.h"
#include "random.h"

#include <stdlib.h>
#include <string.h>

struct maker {
    const struct job *job;
    const struct history *history;
    const struct bytes *report;
    uint64_t state;
    struct damaged out;
    void (*use)(const struct damaged *damaged, void *with);
    void *with;
    size_t start, length; /* the field that is being damaged */
};

static void give(struct maker *m, const char *what, long place, int sure)
{
    m->out.what = what;
    m->out.place = place;
    m->out.sure = sure;
    m->use(&m->out, m->with);
}

static size_t field_length(const struct bytes *report, size_t start)
{
    return 3 + (size_t)two_bytes(report->at + start + 1);
}

/* The report with the field at m->start replaced. */
static void with_field(struct maker *m, const char *what, int kind, const int *numbers, int count)
{
    struct bytes *out = &m->out.report;
    out->length = 0;
    bytes_add(out, m->report->at, m->start);
    byte_add(out, kind);
    number_add(out, 2 * count);
    for (int i = 0; i < count; i++)
        number_add(out, numbers[i]);
    bytes_add(out, m->report->at + m->start + m->length, m->report->length - m->start - m->length);
    give(m, what, (long)m->start, 1);
}

/* The same, unless the list is a reason for the earliest broken pair as well. */
static void with_field_if_wrong(struct maker *m, int question, const char *what, const int *numbers, int count)
{
    if (reason_fault(m->job, m->history, question, numbers + 1, count - 1) != 0)
        with_field(m, what, KIND_BREACH, numbers, count);
}

static void cuts_and_bytes(struct maker *m)
{
    struct bytes *out = &m->out.report;
    size_t step = m->report->length / 200 + 1, start = 0;
    for (size_t at = 0; at < m->report->length; at += step) {
        while (at >= start + field_length(m->report, start))
            start += field_length(m->report, start);
        out->length = 0;
        bytes_add(out, m->report->at, at);
        give(m, "cut", (long)start, 1);
        out->length = 0;
        bytes_add(out, m->report->at, m->report->length);
        out->at[at] = (unsigned char)(out->at[at] + 1 + random_below(&m->state, 255));
        int kind = m->report->at[start];
        give(m, "byte", (long)start, kind == KIND_REASON ? at < start + 3 : kind != KIND_BREACH || at < start + 5);
    }
}

static void spare_bytes(struct maker *m)
{
    struct bytes *out = &m->out.report;
    out->length = 0;
    bytes_add(out, m->report->at, m->report->length);
    byte_add(out, 0);
    give(m, "one spare byte", (long)m->report->length, 1);
    byte_add(out, 0);
    byte_add(out, 0);
    give(m, "three spare bytes", (long)m->report->length, 1);
    out->length = m->report->length;
    bytes_add(out, m->report->at + m->report->length - 7, 7);
    give(m, "the totals twice", (long)m->report->length, 1);
}

static void leaders(struct maker *m, const struct question *q, const struct moment *at)
{
    if (at->leader_s != at->leader_t)
        with_field(m, "leaders swapped", KIND_LEADERS, (int[]){at->leader_t, at->leader_s}, 2);
    with_field(m, "leader of s one higher", KIND_LEADERS, (int[]){at->leader_s + 1, at->leader_t}, 2);
    with_field(m, "leader of t one higher", KIND_LEADERS, (int[]){at->leader_s, at->leader_t + 1}, 2);
    if (q->s != at->leader_s || q->t != at->leader_t)
        with_field(m, "tags for leaders", KIND_LEADERS, (int[]){q->s, q->t}, 2);
    with_field(m, "one leader", KIND_LEADERS, (int[]){at->leader_s}, 1);
    with_field(m, "three leaders", KIND_LEADERS, (int[]){at->leader_s, at->leader_t, 0}, 3);
}

/* Document 02, No. 7. A list that passes the three looks and is not that of the leaders is wrong too. */
static void whys(struct maker *m, int question)
{
    const struct job *job = m->job;
    int right[MOST_TAGS + 1] = {0}, list[MOST_TAGS + 1];
    for (int x = 0; x < job->tags; x++)
        right[x] = m->history->leaders[question][x];
    if (m->history->moment[question].follows) {
        with_field(m, "88 where it follows", KIND_APART, right, job->tags);
        with_field(m, "89 with a number", KIND_EQUALS, right, 1);
        return;
    }
    with_field(m, "89 where it does not follow", KIND_EQUALS, right, 0);
    with_field(m, "89 with the leaders", KIND_EQUALS, right, job->tags);
    with_field(m, "a leader too few", KIND_APART, right, job->tags - 1);
    with_field(m, "a leader too many", KIND_APART, right, job->tags + 1);
    memcpy(list, right, sizeof list);
    list[random_below(&m->state, job->tags)]++;
    with_field(m, "a leader one higher", KIND_APART, list, job->tags);
    for (int x = 0; x < job->tags; x++)
        list[x] = right[x] + 1;
    with_field(m, "another list that passes the looks", KIND_APART, list, job->tags);
    memcpy(list, right, sizeof list);
    for (int x = 0; x + 1 < job->tags; x++)
        if (list[x] > list[x + 1]) { /* two leaders in their own order */
            int kept = list[x];
            list[x] = list[x + 1];
            list[x + 1] = kept;
            with_field(m, "leaders in their own order", KIND_APART, list, job->tags);
            break;
        }
}

static void not_following(struct maker *m, const struct question *q)
{
    int numbers[MOST_RECORDS];
    for (int i = 0; i < q->before; i++)
        numbers[i] = i + 1;
    with_field(m, "84 with no number where it does not follow", KIND_REASON, numbers, 0);
    with_field(m, "84 with every record where it does not follow", KIND_REASON, numbers, q->before);
    if (q->before > 0)
        with_field(m, "84 with one record where it does not follow", KIND_REASON,
                   (int[]){1 + random_below(&m->state, q->before)}, 1);
    with_field(m, "85 with a number", KIND_NOT, (int[]){0}, 1);
}

/* A list without the first k of which none can be spared, where there is one: the job is closed without record k. */
static void later_last(struct maker *m, int question, int *numbers)
{
    static struct job other;
    static struct history history;
    const struct question *q = &m->job->question[question];
    int k = m->history->moment[question].first;
    other = *m->job;
    other.record[k] = (struct record){0, 0, 0, 0, 0};
    other.question[0] = *q;
    other.questions = 1;
    history_of(&history, &other, m->history->way);
    if (history.moment[0].follows)
        with_field(m, "none to spare, but the last is later than the first k", KIND_REASON, numbers,
                   reason_find(&other, &history, 0, 0, numbers));
}

static void with_reason(struct maker *m, int question)
{
    const struct question *q = &m->job->question[question];
    int right[MOST_RECORDS + 1] = {0}, list[MOST_RECORDS + 1];
    int count = two_bytes(m->report->at + m->start + 1) / 2;
    for (int i = 0; i < count; i++)
        right[i] = two_bytes(m->report->at + m->start + 3 + 2 * i);
    with_field(m, "85 where it follows", KIND_NOT, right, 0);
    with_field(m, "85 with the list", KIND_NOT, right, count > 0 ? count : 1);
    for (int i = 0; i < q->before; i++)
        list[i] = i + 1;
    if (count < q->before)
        with_field(m, "every record before the question", KIND_REASON, list, q->before);
    memcpy(list, right, sizeof list);
    if (count < q->before) { /* one too many: any number that is not in the list, put where it belongs */
        int extra = 1, at = 0;
        while (at < count && right[at] == extra)
            extra++, at++;
        memmove(list + at + 1, list + at, (size_t)(count - at) * sizeof *list);
        list[at] = extra;
        with_field(m, "one record too many", KIND_REASON, list, count + 1);
        memcpy(list, right, sizeof list);
    }
    list[count] = q->before + 1;
    with_field(m, "a record that does not stand before the question", KIND_REASON, list, count + 1);
    if (count == 0)
        return;
    with_field(m, "no number", KIND_REASON, list, 0);
    int i = random_below(&m->state, count);
    memcpy(list, right, sizeof list);
    memmove(list + i, list + i + 1, (size_t)(count - i - 1) * sizeof *list);
    with_field(m, "a number missing", KIND_REASON, list, count - 1);
    memcpy(list, right, sizeof list);
    memmove(list + i + 1, list + i, (size_t)(count - i) * sizeof *list);
    with_field(m, "a number doubled", KIND_REASON, list, count + 1);
    with_field(m, "the last number missing", KIND_REASON, right, count - 1);
    if (count > 1) {
        memcpy(list, right, sizeof list);
        i = random_below(&m->state, count - 1);
        list[i] = right[i + 1];
        list[i + 1] = right[i];
        with_field(m, "two numbers swapped", KIND_REASON, list, count);
    }
    later_last(m, question, list);
}

/* No pair is broken. */
static void unbroken(struct maker *m, const struct question *q)
{
    with_field(m, "86 with the first pair where none is broken", KIND_BREACH, (int[]){1}, 1);
    with_field(m, "86 with the last pair and a record where none is broken", KIND_BREACH, (int[]){q->pairs, q->before}, 2);
    with_field(m, "86 with no number where none is broken", KIND_BREACH, NULL, 0);
    with_field(m, "87 with a number", KIND_WHOLE, (int[]){0}, 1);
    with_field(m, "85 for 87", KIND_NOT, NULL, 0);
}

/* The earliest broken pair and a reason: another number, another list, none. */
static void with_breach(struct maker *m, int question)
{
    const struct question *q = &m->job->question[question];
    int right[MOST_RECORDS + 2] = {0}, list[MOST_RECORDS + 2];
    int count = two_bytes(m->report->at + m->start + 1) / 2;
    for (int i = 0; i < count; i++)
        right[i] = two_bytes(m->report->at + m->start + 3 + 2 * i);
    with_field(m, "87 where a pair is broken", KIND_WHOLE, NULL, 0);
    with_field(m, "84 with the number and the list", KIND_REASON, right, count);
    with_field(m, "86 with no number", KIND_BREACH, NULL, 0);
    for (int step = -1; step <= 1; step += 2) {
        memcpy(list, right, sizeof list);
        list[0] += step;
        with_field(m, step < 0 ? "the number counted from 0" : "the next pair with this one's list", KIND_BREACH, list, count);
    }
    for (int k = right[0] + 1; k <= q->pairs; k++) { /* a later pair that is broken too, with its own list */
        static struct job other;
        static struct history history;
        other = *m->job;
        other.question[0] = (struct question){1, other.pair[k].a, other.pair[k].b, q->before, 0, 0, 0};
        other.questions = 1;
        history_of(&history, &other, m->history->way);
        if (!history.moment[0].follows)
            continue;
        list[0] = k;
        int length = reason_find(&other, &history, 0, 0, list + 1);
        with_field(m, "a later broken pair", KIND_BREACH, list, 1 + length);
        if (length != count - 1 || memcmp(list + 1, right + 1, (size_t)length * sizeof *list) != 0) {
            list[0] = right[0];
            with_field_if_wrong(m, question, "the reason of another pair", list, 1 + length);
        }
        break;
    }
    if (count == 1) {
        if (q->before > 0)
            with_field(m, "a record for a tag and itself", KIND_BREACH, (int[]){right[0], 1}, 2);
        return;
    }
    with_field(m, "the number alone", KIND_BREACH, right, 1);
    memcpy(list, right, sizeof list);
    int i = 1 + random_below(&m->state, count - 1);
    memmove(list + i, list + i + 1, (size_t)(count - i - 1) * sizeof *list);
    with_field(m, "a number of the reason missing", KIND_BREACH, list, count - 1);
    memcpy(list, right, sizeof list);
    memmove(list + i + 1, list + i, (size_t)(count - i) * sizeof *list);
    with_field(m, "a number of the reason doubled", KIND_BREACH, list, count + 1);
    memcpy(list, right, sizeof list);
    list[count] = q->before + 1;
    with_field(m, "a record that does not stand before the 06", KIND_BREACH, list, count + 1);
    if (count - 1 < q->before) {
        for (int k = 0; k < q->before; k++)
            list[1 + k] = k + 1;
        with_field(m, "every record before the 06", KIND_BREACH, list, 1 + q->before);
    }
}

/* The report with bytes put in at m->start, which is at fault there or behind them. */
static void with_more(struct maker *m, const char *what, const unsigned char *bytes, size_t length, long place)
{
    struct bytes *out = &m->out.report;
    out->length = 0;
    bytes_add(out, m->report->at, m->start);
    bytes_add(out, bytes, length);
    bytes_add(out, m->report->at + m->start, m->report->length - m->start);
    give(m, what, place, 1);
}

/* Document 02, No. 9: the 8A at m->start, behind a reason whose numbers are told. */
static void with_sheets(struct maker *m, int question, const int *numbers, int length)
{
    const struct question *q = &m->job->question[question];
    const unsigned char *field = m->report->at + m->start;
    int right[MOST_RECORDS + 1], list[MOST_RECORDS + 2], count = two_bytes(field + 1) / 2;
    for (int i = 0; i < count; i++)
        right[i] = two_bytes(field + 3 + 2 * i);
    struct bytes *out = &m->out.report;
    out->length = 0;
    bytes_add(out, m->report->at, m->start);
    bytes_add(out, field + m->length, m->report->length - m->start - m->length);
    give(m, "8A missing", (long)m->start, 1);
    with_more(m, "8A twice", field, m->length, (long)(m->start + m->length));
    with_field(m, "the sheets under another kind", KIND_EQUALS, right, count);
    list[0] = 0;
    memcpy(list + 1, right, (size_t)count * sizeof *list);
    with_field(m, "0 among the sheets", KIND_SHEETS, list, count + 1);
    memcpy(list, right, (size_t)count * sizeof *list);
    list[count] = count > 0 ? right[count - 1] + 1 : 1;
    with_field(m, "a sheet too many", KIND_SHEETS, list, count + 1);
    list[count] = count > 0 ? right[count - 1] : 1;
    with_field(m, "the last sheet twice", KIND_SHEETS, list, count + 1);
    if (count > 0)
        with_field(m, "the last sheet missing", KIND_SHEETS, right, count - 1);
    if (count > 1) {
        list[0] = right[1];
        list[1] = right[0];
        with_field(m, "sheets that do not rise", KIND_SHEETS, list, count);
    }
    for (int k = 1; k <= q->before; k++) { /* a sheet of a record that is not in the reason */
        int there = m->job->record[k].sheet == 0, at = 0;
        for (int i = 0; i < length; i++)
            there |= m->job->record[numbers[i]].sheet == m->job->record[k].sheet;
        if (there)
            continue;
        while (at < count && right[at] < m->job->record[k].sheet)
            at++;
        memcpy(list, right, (size_t)at * sizeof *list);
        list[at] = m->job->record[k].sheet;
        memcpy(list + at + 1, right + at, (size_t)(count - at) * sizeof *list);
        with_field(m, "a sheet of another record", KIND_SHEETS, list, count + 1);
        break;
    }
}

static void totals(struct maker *m)
{
    int classes = m->history->classes, idle = m->history->idle;
    with_field(m, "one class more", KIND_TOTALS, (int[]){classes + 1, idle}, 2);
    with_field(m, "one class fewer", KIND_TOTALS, (int[]){classes - 1, idle}, 2);
    with_field(m, "one idle record more", KIND_TOTALS, (int[]){classes, idle + 1}, 2);
    if (idle > 0)
        with_field(m, "one idle record fewer", KIND_TOTALS, (int[]){classes, idle - 1}, 2);
    if (m->history->joined_nothing != idle)
        with_field(m, "the records that joined nothing", KIND_TOTALS, (int[]){classes, m->history->joined_nothing}, 2);
    if (classes != idle)
        with_field(m, "totals swapped", KIND_TOTALS, (int[]){idle, classes}, 2);
}

/* The field and the next change places; two reasons may each be right in the other's place, so that is not sure. */
static void exchanged(struct maker *m)
{
    struct bytes *out = &m->out.report;
    size_t next = m->start + m->length, length = field_length(m->report, next);
    if (length == m->length && memcmp(m->report->at + m->start, m->report->at + next, length) == 0)
        return;
    out->length = 0;
    bytes_add(out, m->report->at, m->start);
    bytes_add(out, m->report->at + next, length);
    bytes_add(out, m->report->at + m->start, m->length);
    bytes_add(out, m->report->at + next + length, m->report->length - next - length);
    int one = m->report->at[m->start], two = m->report->at[next];
    give(m, "two fields exchanged", (long)m->start, one != two || (one != KIND_REASON && one != KIND_BREACH));
}

void each_damage(const struct job *job, const struct history *history, const struct bytes *report, uint64_t seed,
                 void (*use)(const struct damaged *damaged, void *with), void *with)
{
    struct maker m = {.job = job, .history = history, .report = report, .state = seed, .use = use, .with = with};
    cuts_and_bytes(&m);
    spare_bytes(&m);
    for (int i = 0; i <= job->questions; i++) {
        m.length = field_length(report, m.start);
        if (i == job->questions)
            totals(&m);
        else {
            if (job->question[i].broken && history->moment[i].pair > 0)
                with_breach(&m, i);
            else if (job->question[i].broken)
                unbroken(&m, &job->question[i]);
            else if (job->question[i].why)
                whys(&m, i);
            else if (!job->question[i].explain)
                leaders(&m, &job->question[i], &history->moment[i]);
            else if (history->moment[i].follows)
                with_reason(&m, i);
            else
                not_following(&m, &job->question[i]);
            exchanged(&m);
        }
        int kind = report->at[m.start], reasoned = kind == KIND_REASON || kind == KIND_BREACH;
        int numbers[MOST_RECORDS + 1], count = 0;
        for (int at = kind == KIND_BREACH ? 5 : 3; reasoned && at < (int)m.length; at += 2)
            numbers[count++] = two_bytes(report->at + m.start + at);
        m.start += m.length;
        if (job->edition == 2 && reasoned) {
            m.length = field_length(report, m.start);
            with_sheets(&m, i, numbers, count);
            exchanged(&m);
            m.start += m.length;
        } else if (i < job->questions)
            with_more(&m, job->edition == 2 ? "8A where there is no reason" : "8A in edition 1",
                      (const unsigned char *)"\x8A\0\0", 3, (long)m.start);
    }
    m.out.report.length = 0; /* reasons found in another order are right as well */
    report_write(job, history, seed | 1, &m.out.report);
    give(&m, "other reasons", -1, 1);
    free(m.out.report.at);
}
