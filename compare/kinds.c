/* The jobs themselves. Every kind writes one whole job (or what is meant to be a broken one) into `out`. Rests on kinds.h. */
#include "kinds.h"
#include "random.h"

#include <stdlib.h>
#include <string.h>

/* ---- fields ---- */

static void field(struct bytes *out, int kind, int count, int a, int b, int c)
{
    int numbers[3] = {a, b, c};
    byte_add(out, kind);
    number_add(out, 2 * count);
    for (int i = 0; i < count; i++)
        number_add(out, numbers[i]);
}

static void tags(struct bytes *out, int n)
{
    field(out, KIND_TAGS, 1, n, 0, 0);
}

/* Document 02, No. 3: tags from u up are units. */
static void tags_and_units(struct bytes *out, int n, int u)
{
    field(out, KIND_TAGS, 2, n, u, 0);
}

/* Either header, with any U. */
static void any_tags(struct bytes *out, int n, uint64_t *state)
{
    if (random_below(state, 3) == 0)
        tags(out, n);
    else
        tags_and_units(out, n, random_below(state, n + 1));
}

static void equal(struct bytes *out, int a, int b)
{
    field(out, KIND_EQUAL, 2, a, b, 0);
}

static void apply(struct bytes *out, int a, int b, int c)
{
    field(out, KIND_APPLY, 3, a, b, c);
}

static void ask(struct bytes *out, int s, int t)
{
    field(out, KIND_ASK, 2, s, t, 0);
}

static void explain(struct bytes *out, int s, int t)
{
    field(out, KIND_EXPLAIN, 2, s, t, 0);
}

static void differ(struct bytes *out, int a, int b)
{
    field(out, KIND_DIFFER, 2, a, b, 0);
}

static void broken(struct bytes *out)
{
    field(out, KIND_BROKEN, 0, 0, 0, 0);
}

static void why(struct bytes *out, int s, int t)
{
    field(out, KIND_WHY, 2, s, t, 0);
}

static void end(struct bytes *out)
{
    field(out, KIND_END, 0, 0, 0, 0);
}

static uint64_t state_of(uint64_t seed, long index)
{
    uint64_t state = seed * 0x2545F4914F6CDD1Du + (uint64_t)index;
    random_next(&state);
    return state;
}

/* Records that are laid down first and then written in some order. */
struct plan {
    struct record record[MOST_RECORDS];
    int count;
};

static void plan_equal(struct plan *plan, int a, int b)
{
    plan->record[plan->count++] = (struct record){0, a, b, 0, 0};
}

static void plan_apply(struct plan *plan, int a, int b, int c)
{
    plan->record[plan->count++] = (struct record){1, a, b, c, 0};
}

static void plan_reverse(struct plan *plan)
{
    for (int i = 0, j = plan->count - 1; i < j; i++, j--) {
        struct record kept = plan->record[i];
        plan->record[i] = plan->record[j];
        plan->record[j] = kept;
    }
}

static void plan_shuffle(struct plan *plan, uint64_t *state)
{
    for (int i = plan->count - 1; i > 0; i--) {
        int j = random_below(state, i + 1);
        struct record kept = plan->record[i];
        plan->record[i] = plan->record[j];
        plan->record[j] = kept;
    }
}

static void plan_write(const struct plan *plan, struct bytes *out)
{
    for (int i = 0; i < plan->count; i++) {
        const struct record *r = &plan->record[i];
        if (r->apply)
            apply(out, r->a, r->b, r->c);
        else
            equal(out, r->a, r->b);
    }
}

/* The questions of a large job: the two ends asked and explained, and some pairs besides; they fit in 60,000 bytes of room. */
static void large_questions(struct bytes *out, int n, int s, int t, uint64_t *state)
{
    ask(out, s, t);
    explain(out, s, t);
    for (int i = 0; i < 4; i++)
        explain(out, random_below(state, n), random_below(state, n));
    for (int i = 0; i < 8; i++)
        ask(out, random_below(state, n), random_below(state, n));
    end(out);
}

/* ---- small jobs ---- */

void inspectors_job(struct bytes *out)
{
    tags(out, 8);
    apply(out, 5, 6, 1);
    apply(out, 5, 7, 2);
    equal(out, 1, 3);
    explain(out, 2, 3);
    equal(out, 6, 7);
    equal(out, 0, 2);
    ask(out, 0, 3);
    explain(out, 0, 3);
    ask(out, 0, 4);
    explain(out, 2, 1);
    explain(out, 4, 4);
    end(out);
}

static void crossed_job(struct bytes *out)
{
    tags(out, 5);
    apply(out, 0, 1, 2);
    apply(out, 1, 0, 3);
    explain(out, 2, 3);
    equal(out, 0, 1);
    ask(out, 2, 3);
    explain(out, 2, 3);
    explain(out, 0, 4);
    end(out);
}

static void spare_job(struct bytes *out)
{
    tags_and_units(out, 4, 3);
    equal(out, 0, 1);
    equal(out, 2, 3);
    equal(out, 1, 2);
    explain(out, 0, 2);
    why(out, 0, 2);
    ask(out, 0, 3);
    end(out);
}

static void differing_job(struct bytes *out)
{
    tags(out, 4);
    differ(out, 0, 3);
    differ(out, 2, 2);
    apply(out, 1, 1, 0);
    broken(out);
    equal(out, 0, 3);
    broken(out);
    end(out);
}

/* Document 02, No. 9: the job in edition 2, with the sheets that `sheet` tells. The job is one that is not refused. */
static void to_sheets(struct bytes *out, int (*sheet)(uint64_t *state, int record), uint64_t *state)
{
    struct bytes old = {0};
    int record = 0;
    bytes_add(&old, out->at, out->length);
    out->length = 0;
    for (size_t at = 0; at < old.length;) {
        int kind = old.at[at], length = two_bytes(old.at + at + 1);
        const unsigned char *body = old.at + at + 3;
        if (kind == KIND_TAGS)
            field(out, KIND_SHEETED, 2, two_bytes(body), two_bytes(body + length - 2), 0);
        else {
            int sheeted = kind == KIND_EQUAL || kind == KIND_APPLY;
            byte_add(out, kind);
            number_add(out, length + 2 * sheeted);
            bytes_add(out, body, (size_t)length);
            if (sheeted)
                number_add(out, sheet(state, ++record));
        }
        at += 3 + (size_t)length;
    }
    free(old.at);
}

/* Sheets: few, so that many records share one, none, and some far up. */
static int some_sheet(uint64_t *state, int record)
{
    static const int high[] = {9999, 9998, 256, 255, 1000};
    (void)record;
    int which = random_below(state, 8);
    return which == 0 ? 0 : which == 1 ? high[random_below(state, 5)] : 1 + random_below(state, 5);
}

static int any_sheet(uint64_t *state, int record)
{
    (void)record;
    return random_below(state, MOST_SHEET + 1);
}

static int own_sheet(uint64_t *state, int record)
{
    (void)state;
    return MOST_SHEET + 1 - record;
}

static void sheets_job(struct bytes *out)
{
    tags(out, 4);
    differ(out, 0, 1);
    apply(out, 0, 1, 2);
    apply(out, 1, 0, 3);
    equal(out, 0, 1);
    explain(out, 2, 3);
    explain(out, 0, 3);
    broken(out);
    ask(out, 0, 2);
    end(out);
    to_sheets(out, own_sheet, NULL);
}

enum { JOBS = 5 };

static void small_job(struct bytes *out, int which)
{
    if (which == 4)
        sheets_job(out);
    else if (which == 3)
        differing_job(out);
    else if (which == 0)
        inspectors_job(out);
    else if (which == 1)
        crossed_job(out);
    else
        spare_job(out);
}

/* Records of few shapes over few tags, so that much becomes equal, but not at once. */
static void random_record(struct bytes *out, int n, int applied, int twice, uint64_t *state)
{
    int a = random_below(state, n), b = random_below(state, n), c = random_below(state, n);
    if (random_below(state, 100) >= applied)
        equal(out, a, b);
    else if (random_below(state, 100) < twice)
        apply(out, a, a, c);
    else
        apply(out, a, b, c);
}

static void make_small(struct bytes *out, int size, uint64_t seed, long index)
{
    uint64_t state = state_of(seed, index);
    int n = 1 + random_below(&state, size);
    int records = random_below(&state, 31), questions = random_below(&state, 13);
    int applied = 20 * random_below(&state, 6), twice = 25 * random_below(&state, 5);
    any_tags(out, n, &state);
    while (records + questions > 0) {
        if (random_below(&state, records + questions) < records) {
            random_record(out, n, applied, twice, &state);
            records--;
        } else {
            int s = random_below(&state, n), t = random_below(&state, n);
            int which = random_below(&state, 4);
            if (which == 0)
                ask(out, s, t);
            else if (which == 1)
                why(out, s, t);
            else
                explain(out, s, t);
            questions--;
        }
    }
    end(out);
}

/* The same with pairs that must differ, and 06 among the questions. */
static void make_differ(struct bytes *out, int size, uint64_t seed, long index)
{
    uint64_t state = state_of(seed ^ 0xD1FFu, index);
    int n = 2 + random_below(&state, size - 1 > 0 ? size - 1 : 1);
    int records = random_below(&state, 25), pairs = random_below(&state, 9), questions = 1 + random_below(&state, 9);
    int applied = 20 * random_below(&state, 6), twice = 25 * random_below(&state, 5);
    any_tags(out, n, &state);
    while (records + pairs + questions > 0) {
        int next = random_below(&state, records + pairs + questions), s = random_below(&state, n), t = random_below(&state, n);
        if (next < records) {
            random_record(out, n, applied, twice, &state);
            records--;
        } else if (next < records + pairs) {
            differ(out, s, s == t && random_below(&state, 4) > 0 ? (t + 1) % n : t);
            pairs--;
        } else {
            int which = random_below(&state, 6);
            if (which == 0)
                ask(out, s, t);
            else if (which == 1)
                explain(out, s, t);
            else
                broken(out);
            questions--;
        }
    }
    end(out);
}

/* Small jobs of edition 2. */
static void make_sheets(struct bytes *out, int size, uint64_t seed, long index)
{
    uint64_t state = state_of(seed ^ 0x5EE75u, index);
    if (index % 2)
        make_differ(out, size, seed, index);
    else
        make_small(out, size, seed, index);
    to_sheets(out, some_sheet, &state);
}

/* A small job with one fault of some kind in it. */
static void make_faulty(struct bytes *out, int size, uint64_t seed, long index)
{
    uint64_t state = state_of(seed ^ 0xFA017u, index);
    if (index % 4 == 3)
        make_sheets(out, size, seed, index);
    else if (index % 2)
        make_differ(out, size, seed, index);
    else
        make_small(out, size, seed, index);
    int at = random_below(&state, (int)out->length);
    switch (random_below(&state, 6)) {
    case 0: /* cut */
        out->length = (size_t)at;
        break;
    case 1: /* a byte changed */
        out->at[at] = (unsigned char)random_below(&state, 256);
        break;
    case 2: /* a small change, which often hits a tag or a kind */
        out->at[at] = (unsigned char)(out->at[at] + 1 - 2 * random_below(&state, 2));
        break;
    case 3: /* a byte left out */
        memmove(out->at + at, out->at + at + 1, out->length - (size_t)at - 1);
        out->length--;
        break;
    case 4: /* a byte put in */
        byte_add(out, 0);
        memmove(out->at + at + 1, out->at + at, out->length - (size_t)at - 1);
        out->at[at] = (unsigned char)random_below(&state, 256);
        break;
    default: /* bytes behind the end */
        for (int i = 1 + random_below(&state, 4); i > 0; i--)
            byte_add(out, random_below(&state, 256));
    }
}

/* Bytes at random, mostly of those that mean something. */
static void make_garbage(struct bytes *out, int size, uint64_t seed, long index)
{
    static const unsigned char known[] = {0x10, 0, 2, 0, 4, 1, 2, 3, 4, 5, 6, 0, 4, 0, 6, 0x7F, 0, 0};
    uint64_t state = state_of(seed, index);
    int length = random_below(&state, 60);
    if (random_below(&state, 2) == 0)
        tags(out, 1 + random_below(&state, size));
    for (int i = 0; i < length; i++)
        byte_add(out, random_below(&state, 4) == 0 ? random_below(&state, 256) : known[random_below(&state, (int)sizeof known)]);
}

static long all_lengths(void)
{
    struct bytes all = {0};
    for (int which = 0; which < JOBS; which++)
        small_job(&all, which);
    free(all.at);
    return (long)all.length;
}

/* Which of the small jobs holds place `place` when they stand one behind the other; the job is put in `out`. */
static long one_of_all(struct bytes *out, long place)
{
    for (int which = 0;; which++) {
        out->length = 0;
        small_job(out, which);
        if (place < (long)out->length)
            return place;
        place -= (long)out->length;
    }
}

static long cut_cases(uint64_t seed)
{
    (void)seed;
    return all_lengths();
}

static void make_cut(struct bytes *out, int size, uint64_t seed, long index)
{
    (void)size;
    (void)seed;
    long place = one_of_all(out, index);
    out->length = (size_t)place;
}

static long byte_cases(uint64_t seed)
{
    (void)seed;
    return all_lengths() * 255;
}

static void make_byte(struct bytes *out, int size, uint64_t seed, long index)
{
    (void)size;
    (void)seed;
    long place = one_of_all(out, index / 255);
    out->at[place] = (unsigned char)(out->at[place] + 1 + index % 255);
}

/* ---- limits on both sides ---- */

static void repeat_records(struct bytes *out, int count, int applied)
{
    for (int i = 0; i < count; i++)
        if (applied)
            apply(out, 0, 0, 0);
        else
            equal(out, 0, 0);
}

static void repeat_questions(struct bytes *out, int count, int explained)
{
    for (int i = 0; i < count; i++)
        if (explained == 2 && i % 5 == 4)
            why(out, 0, 0);
        else if (explained == 2 ? i % 2 : explained)
            explain(out, 0, 0);
        else
            ask(out, 0, 0);
}

static void repeat_pairs(struct bytes *out, int count)
{
    for (int i = 0; i < count; i++)
        differ(out, 0, 0);
}

static void limit_tags(struct bytes *out, int which)
{
    static const int n[] = {0, 1, 2, 999, 1000, 1001, 1024, 65535};
    tags(out, n[which]);
    end(out);
}

/* U of 0, N-1, N and N+1, and far above, for some N. */
static void limit_units(struct bytes *out, int which)
{
    static const int n[] = {0, 1, 5, 1000, 1001};
    int size = n[which / 5], u[] = {0, size > 0 ? size - 1 : 0, size, size + 1, 65535};
    tags_and_units(out, size, u[which % 5]);
    if (size > 1) {
        equal(out, size - 1, 0);
        ask(out, 0, 1);
        ask(out, size - 1, size - 2);
    }
    end(out);
}

/* One tag number at the limit: in which field and where in it, N, and whether it is N-1 or N. */
static void limit_tag(struct bytes *out, int which)
{
    static const int kind[] = {KIND_EQUAL, KIND_EQUAL, KIND_APPLY, KIND_APPLY, KIND_APPLY, KIND_ASK, KIND_ASK, KIND_EXPLAIN,
                               KIND_EXPLAIN, KIND_DIFFER, KIND_DIFFER, KIND_WHY, KIND_WHY};
    static const int where[] = {0, 1, 0, 1, 2, 0, 1, 0, 1, 0, 1, 0, 1};
    static const int n[] = {1, 5, 1000};
    int place = which % 13, over = which / 13 % 2, number[3] = {0, 0, 0}, size = n[which / 26];
    number[where[place]] = size - 1 + over;
    tags(out, size);
    equal(out, 0, 0);
    field(out, kind[place], kind[place] == KIND_APPLY ? 3 : 2, number[0], number[1], number[2]);
    end(out);
}

/* Several tags of one field at the limit: every choice of those that are too high, in each kind, by one or by many. */
static void limit_tags_wrong(struct bytes *out, int which)
{
    static const int kind[] = {KIND_EQUAL, KIND_APPLY, KIND_ASK, KIND_EXPLAIN, KIND_DIFFER, KIND_WHY};
    int chosen = which % 8, far = which / 8 % 2, n = 3, number[3];
    for (int i = 0; i < 3; i++)
        number[i] = chosen >> i & 1 ? far ? 65535 - i : n : n - 1;
    tags(out, n);
    apply(out, 0, 1, 2);
    field(out, kind[which / 16], kind[which / 16] == KIND_APPLY ? 3 : 2, number[0], number[1], number[2]);
    end(out);
}

static void limit_counts(struct bytes *out, int which)
{
    if (which >= 16)
        tags_and_units(out, 1, which % 2);
    else
        tags(out, 1);
    switch (which) {
    case 0:
    case 1:
        repeat_records(out, 4000 + which, 0);
        break;
    case 2:
    case 3:
        repeat_records(out, 3998 + which, 1);
        break;
    case 4:
    case 5:
        repeat_questions(out, 996 + which, 0);
        break;
    case 6:
    case 7:
        repeat_questions(out, 994 + which, 1);
        break;
    case 8:
    case 9:
        repeat_questions(out, 992 + which, 2);
        repeat_records(out, 4000, 0);
        break;
    case 10: /* the longest job that states no U */
    case 11: /* a byte longer */
    case 18: /* the longest job */
    case 19: /* a byte longer */
        repeat_records(out, 4000, 1);
        repeat_pairs(out, 500);
        repeat_questions(out, 1000, 2);
        end(out);
        if (which % 2 == 1)
            byte_add(out, 0);
        return;
    case 12: /* the 4,001st record has a tag too high: 7 before 11 */
        repeat_records(out, 4000, 0);
        equal(out, 1, 0);
        break;
    case 13: /* the 4,001st record has a wrong length: 5 before 7 */
        repeat_records(out, 4000, 0);
        field(out, KIND_EQUAL, 3, 0, 0, 0);
        break;
    case 14: /* the body of the 4,001st record is cut: 3 before 7 */
        repeat_records(out, 4000, 0);
        equal(out, 0, 0);
        out->length--;
        return;
    case 15: /* the 1,001st question has a tag too high */
        repeat_questions(out, 1000, 0);
        explain(out, 0, 1);
        break;
    case 20: /* the 500th and the 501st kind 05 */
    case 21:
        repeat_pairs(out, 480 + which);
        break;
    case 22: /* the 501st has a tag too high: 7 before 11 */
        repeat_pairs(out, 500);
        differ(out, 1, 0);
        break;
    case 23: /* the 501st has a wrong length: 5 before 7 */
        repeat_pairs(out, 500);
        field(out, KIND_DIFFER, 1, 0, 0, 0);
        break;
    case 24: /* a 06 as the 1,000th and as the 1,001st question */
    case 25:
        repeat_questions(out, 975 + which, 2);
        broken(out);
        break;
    case 26: /* pairs are no records, and records no pairs */
        repeat_pairs(out, 500);
        repeat_records(out, 4000, 0);
        broken(out);
        break;
    case 27: /* a 06 with a body */
        field(out, KIND_BROKEN, 1, 0, 0, 0);
        break;
    default: /* 16 and 17: no end, of the longest job's bytes and of one more */
        repeat_records(out, 4000, 1);
        repeat_pairs(out, 500);
        repeat_questions(out, 1000, 0);
        while (out->length < (size_t)(LONGEST_JOB + which - 16))
            byte_add(out, 0x10);
        return;
    }
    end(out);
}

/* A field that is not one, behind the first field or instead of it. */
static void limit_shape(struct bytes *out, int which)
{
    static const unsigned char shape[][7] = {
        {0x10, 0, 2, 0, 1},    {0x10, 0, 4, 0, 1, 0, 1}, {0x10, 0, 0},          {0x7F, 0, 2, 0, 0}, {0x7F, 0, 1, 0},
        {0x00, 0, 0},          {0x05, 0, 4, 0, 0, 0, 0}, {0x0F, 0, 0},          {0x11, 0, 2, 0, 1}, {0x80, 0, 0},
        {0x83, 0, 4, 0, 0},    {0xFF, 0xFF, 0xFF},       {0x01, 0, 6, 0, 0},    {0x01, 0, 2, 0, 0}, {0x01, 4, 0, 0, 0},
        {0x02, 0, 4, 0, 0},    {0x03, 0, 6, 0, 0},       {0x04, 0, 2, 0, 0},    {0x04, 1, 4, 0, 0}, {0x01, 0, 4, 0, 0, 0},
        {0x7F},                {0x7F, 0},                {0x10, 0},             {0x00},             {0x01, 0, 4},
        {0x10, 0, 3, 0, 1, 0}, {0x10, 0, 6, 0, 1, 0, 1}, {0x10, 0, 4, 0, 1, 0}, {0x10, 0, 4, 0, 1}, {0x10, 4, 0, 0, 1, 0, 1}};
    static const int length[] = {5, 7, 3, 5, 4, 3, 7, 3, 5, 3, 5, 3, 5, 5, 5, 5, 5, 5, 5, 6, 1, 2, 2, 1, 3, 6, 7, 6, 5, 7};
    if (which >= 30)
        tags(out, 2);
    for (int i = 0; i < length[which % 30]; i++)
        byte_add(out, shape[which % 30][i]);
}

/* Needed room of 60,000 bytes, which are lent, and of 60,001: 15 reasons of at most 1,998 numbers take 59,985, the totals 7. */
static void limit_room(struct bytes *out, int which)
{
    tags(out, 1000);
    if (which == 0)
        explain(out, 0, 1); /* 3 */
    for (int i = 0; i < 1998; i++) {
        if (i == (which == 0 ? 1 : 3))
            explain(out, 0, 1); /* 5, or 9 */
        equal(out, i % 7, i % 11);
    }
    for (int i = 0; i < 15; i++)
        explain(out, i, 12 - i % 12);
    end(out);
}

enum { LIMIT_TAGS = 1, LIMIT_TAG = LIMIT_TAGS + 8, LIMIT_WRONG = LIMIT_TAG + 78, LIMIT_COUNTS = LIMIT_WRONG + 96, LIMIT_SHAPES = LIMIT_COUNTS + 28,
       LIMIT_ROOM = LIMIT_SHAPES + 60, LIMIT_BEHIND = LIMIT_ROOM + 2, LIMIT_UNITS = LIMIT_BEHIND + 2, LIMIT_WHYS = LIMIT_UNITS + 25, LIMIT_SHEETS = LIMIT_WHYS + 4,
       LIMITS = LIMIT_SHEETS + 16 };

/* 29 whys at N = 1,000 take 58,087 bytes; with 1,906 more, of asks and explains, and the totals the room is full. A 30th does not fit. And N = 1. */
static void limit_whys(struct bytes *out, int which)
{
    int n = which == 3 ? 1 : 1000;
    tags_and_units(out, n, n / 2);
    for (int i = 0; n > 1 && i < 600; i++)
        equal(out, i, i + 200);
    for (int i = 0; i < 29 + (which == 1); i++)
        why(out, i % n, i % 3 == 0 ? (i + 200) % n : (7 * i) % n);
    for (int i = 0; n > 1 && i < 272; i++)
        ask(out, i, 999 - i);
    if (which == 2)
        why(out, 5, 5);
    end(out);
}

/* Document 02, No. 9: a sheet and a tag on both sides of their limits, the longest job, headers twice, and the needed room. */
static void limit_sheets(struct bytes *out, int which)
{
    static const int sheet[] = {0, 1, 9999, 10000, 65535};
    field(out, KIND_SHEETED, 2, 2, which == 7 ? 3 : 1, 0);
    if (which < 5) { /* in a 01 and in a 02 */
        field(out, KIND_EQUAL, 3, 0, 1, which % 2 == 0 ? sheet[which] : 7);
        byte_add(out, KIND_APPLY);
        number_add(out, 8);
        for (int i = 0; i < 3; i++)
            number_add(out, i % 2);
        number_add(out, sheet[which]);
        explain(out, 0, 1);
    }
    if (which == 5 || which == 6) /* 11 before 17, and 12 */
        field(out, KIND_EQUAL, 3, which == 5 ? 2 : 0, 2, 10000);
    if (which == 8 || which == 9) /* a second header of either kind */
        field(out, which == 8 ? KIND_TAGS : KIND_SHEETED, 2, 2, 1, 0);
    if (which == 10) /* a record of edition 1 */
        equal(out, 0, 1);
    if (which == 11 || which == 12) { /* the longest job, and a byte more */
        for (int i = 0; i < 4000; i++) {
            byte_add(out, KIND_APPLY);
            number_add(out, 8);
            for (int j = 0; j < 3; j++)
                number_add(out, 0);
            number_add(out, i);
        }
        repeat_pairs(out, 500);
        repeat_questions(out, 1000, 0);
        end(out);
        if (which == 12)
            byte_add(out, 0);
        return;
    }
    if (which == 13 || which == 14) /* 1,000 explains and 06 on two tags after a record: 60 of them with 10 and 12 bytes each */
        for (int i = 0; i < 1000; i++) {
            if (i == 1)
                field(out, KIND_EQUAL, 3, 0, 1, 12);
            if (which == 13 ? i % 3 == 0 : i % 2 == 0)
                broken(out);
            else
                explain(out, 0, 1);
        }
    if (which == 15) { /* the 4,001st record with a sheet too high: 7 before 17 */
        for (int i = 0; i < 4000; i++)
            field(out, KIND_EQUAL, 3, 0, 1, i);
        field(out, KIND_EQUAL, 3, 0, 1, 10000);
    }
    end(out);
}

static long limit_cases(uint64_t seed)
{
    (void)seed;
    return LIMITS;
}

static void make_limit(struct bytes *out, int size, uint64_t seed, long index)
{
    int which = (int)index;
    (void)size;
    (void)seed;
    if (which < LIMIT_TAGS)
        return; /* the empty job */
    if (which < LIMIT_TAG)
        limit_tags(out, which - LIMIT_TAGS);
    else if (which < LIMIT_WRONG)
        limit_tag(out, which - LIMIT_TAG);
    else if (which < LIMIT_COUNTS)
        limit_tags_wrong(out, which - LIMIT_WRONG);
    else if (which < LIMIT_SHAPES)
        limit_counts(out, which - LIMIT_COUNTS);
    else if (which < LIMIT_ROOM)
        limit_shape(out, which - LIMIT_SHAPES);
    else if (which < LIMIT_BEHIND)
        limit_room(out, which - LIMIT_ROOM);
    else if (which >= LIMIT_SHEETS)
        limit_sheets(out, which - LIMIT_SHEETS);
    else if (which >= LIMIT_WHYS)
        limit_whys(out, which - LIMIT_WHYS);
    else if (which >= LIMIT_UNITS)
        limit_units(out, which - LIMIT_UNITS);
    else { /* a byte behind the end, and a second end */
        inspectors_job(out);
        byte_add(out, which == LIMIT_BEHIND ? 0 : KIND_END);
    }
}

/* ---- large jobs, each the worst of its kind ---- */

static void lay(struct bytes *out, int n, const struct plan *plan, int s, int t, uint64_t *state)
{
    tags(out, n);
    plan_write(plan, out);
    large_questions(out, n, s, t, state);
}

/* 0=1, 1=2, ..; `way` 0 forward, 1 from the last to the first, 2 shuffled. */
static void chain(struct bytes *out, int n, uint64_t seed, long index, int way)
{
    struct plan plan = {.count = 0};
    uint64_t state = state_of(seed, index);
    for (int i = 0; i + 1 < n; i++)
        plan_equal(&plan, i, i + 1);
    if (way == 1)
        plan_reverse(&plan);
    if (way == 2)
        plan_shuffle(&plan, &state);
    lay(out, n, &plan, 0, n - 1, &state);
}

static void make_chain(struct bytes *out, int n, uint64_t seed, long index)
{
    chain(out, n, seed, index, 0);
}

static void make_chain_back(struct bytes *out, int n, uint64_t seed, long index)
{
    chain(out, n, seed, index, 1);
}

static void make_chain_shuffled(struct bytes *out, int n, uint64_t seed, long index)
{
    chain(out, n, seed, index, 2);
}

/* Two towers f(x, x) = x' of n/2 tags each, and their lowest tags equal: the last record (forward) or the first. */
static void tower(struct bytes *out, int n, uint64_t seed, long index, int way)
{
    struct plan plan = {.count = 0};
    uint64_t state = state_of(seed, index);
    int high = n / 2;
    for (int i = 0; i + 1 < high; i++) {
        plan_apply(&plan, i, i, i + 1);
        plan_apply(&plan, high + i, high + i, high + i + 1);
    }
    plan_equal(&plan, 0, n > 1 ? high : 0);
    if (way == 1)
        plan_reverse(&plan);
    if (way == 2)
        plan_shuffle(&plan, &state);
    lay(out, n, &plan, high > 0 ? high - 1 : 0, n > 1 ? 2 * high - 1 : 0, &state);
}

static void make_tower(struct bytes *out, int n, uint64_t seed, long index)
{
    tower(out, n, seed, index, 0);
}

static void make_tower_back(struct bytes *out, int n, uint64_t seed, long index)
{
    tower(out, n, seed, index, 1);
}

static void make_tower_shuffled(struct bytes *out, int n, uint64_t seed, long index)
{
    tower(out, n, seed, index, 2);
}

/* One tower f(x, x) = x' and, at the end, its two lowest tags equal: all of it falls together. */
static void make_collapse(struct bytes *out, int n, uint64_t seed, long index)
{
    struct plan plan = {.count = 0};
    uint64_t state = state_of(seed, index);
    for (int i = 0; i + 1 < n; i++)
        plan_apply(&plan, i, i, i + 1);
    plan_equal(&plan, 0, n > 1 ? 1 : 0);
    lay(out, n, &plan, 0, n - 1, &state);
}

/* Two towers where each tag rests on the two below it: exponential for whoever follows a join twice. */
static void make_fibonacci(struct bytes *out, int n, uint64_t seed, long index)
{
    struct plan plan = {.count = 0};
    uint64_t state = state_of(seed, index);
    int high = n / 2;
    for (int i = 0; i + 2 < high; i++) {
        plan_apply(&plan, i, i + 1, i + 2);
        plan_apply(&plan, high + i, high + i + 1, high + i + 2);
    }
    if (high > 1) {
        plan_equal(&plan, 0, high);
        plan_equal(&plan, 1, high + 1);
    }
    lay(out, n, &plan, high > 0 ? high - 1 : 0, high > 0 ? 2 * high - 1 : 0, &state);
}

/* A reason at the bound: two applications of the same tags for every join, 2(N-1) records and one class. */
static void make_bound(struct bytes *out, int n, uint64_t seed, long index)
{
    struct plan plan = {.count = 0};
    uint64_t state = state_of(seed, index);
    for (int i = 0; i + 1 < n; i++) {
        plan_apply(&plan, i + 1, i, i);
        plan_apply(&plan, i + 1, i, i + 1);
    }
    lay(out, n, &plan, 0, n - 1, &state);
}

/* The same in edition 2, each record on a sheet of its own, the later on the lower: as many sheets as a reason can have, all out of order. */
static void make_bound_sheets(struct bytes *out, int n, uint64_t seed, long index)
{
    make_bound(out, n, seed, index);
    to_sheets(out, own_sheet, NULL);
}

/* The same over some of the tags, while all others stay alone: with C classes 2(N-C) records, and every one of them is needed. */
static void make_bound_apart(struct bytes *out, int n, uint64_t seed, long index)
{
    struct plan plan = {.count = 0};
    uint64_t state = state_of(seed, index);
    int together = 1 + random_below(&state, n);
    for (int i = 0; i + 1 < together; i++) {
        plan_apply(&plan, i + 1, i, i);
        plan_apply(&plan, i + 1, i, i + 1);
    }
    lay(out, n, &plan, 0, together - 1, &state);
}

/* A reason at the bound where every join rests on all those before it; `way` 1: from the last to the first. */
static void bound_deep(struct bytes *out, int n, uint64_t seed, long index, int way)
{
    struct plan plan = {.count = 0};
    uint64_t state = state_of(seed, index);
    for (int i = 0; i + 1 < n; i++) {
        plan_apply(&plan, 0, i + 1, i);
        plan_apply(&plan, i, i + 1, i + 1);
    }
    if (way == 1)
        plan_reverse(&plan);
    lay(out, n, &plan, 0, n - 1, &state);
}

static void make_bound_deep(struct bytes *out, int n, uint64_t seed, long index)
{
    bound_deep(out, n, seed, index, 0);
}

static void make_bound_back(struct bytes *out, int n, uint64_t seed, long index)
{
    bound_deep(out, n, seed, index, 1);
}

/* Every link of a chain said four times: twice plainly and once by two applications; shuffled. 4(N-1) records. */
static void make_redundant(struct bytes *out, int n, uint64_t seed, long index)
{
    struct plan plan = {.count = 0};
    uint64_t state = state_of(seed, index);
    for (int i = 0; i + 1 < n; i++) {
        plan_equal(&plan, i, i + 1);
        plan_equal(&plan, i + 1, i);
        plan_apply(&plan, i, i + 1, i);
        plan_apply(&plan, i, i + 1, i + 1);
    }
    plan_shuffle(&plan, &state);
    lay(out, n, &plan, 0, n - 1, &state);
}

/* Many applications of one shape (Example 10 of source document 002): a chain of arguments, each applied to itself; shuffled. */
static void make_shapes(struct bytes *out, int n, uint64_t seed, long index)
{
    struct plan plan = {.count = 0};
    uint64_t state = state_of(seed, index);
    int half = n / 2;
    for (int i = 0; i < half; i++) {
        if (i > 0)
            plan_equal(&plan, random_below(&state, i), i);
        plan_apply(&plan, i, i, half + i);
    }
    plan_shuffle(&plan, &state);
    lay(out, n, &plan, half, n - 1, &state);
}

/* 4N records at random (at most 4,000), questions between them. */
static void make_dense(struct bytes *out, int n, uint64_t seed, long index)
{
    uint64_t state = state_of(seed, index);
    int records = 4 * n, equations = 1 + random_below(&state, 40);
    any_tags(out, n, &state);
    for (int i = 1; i <= records; i++) {
        random_record(out, n, 100 - equations, 20, &state);
        if (i % (n / 3 + 1) == 0)
            explain(out, random_below(&state, n), random_below(&state, n));
        if (i % (n / 25 + 1) == 0)
            ask(out, random_below(&state, n), random_below(&state, n));
    }
    end(out);
}

static void make_dense_sheets(struct bytes *out, int n, uint64_t seed, long index)
{
    uint64_t state = state_of(seed ^ 0x5EE75u, index);
    make_dense(out, n, seed, index);
    to_sheets(out, any_sheet, &state);
}

/* Some records, and between them as many whys as 60,000 bytes of room allow. */
static void make_whys(struct bytes *out, int n, uint64_t seed, long index)
{
    uint64_t state = state_of(seed, index);
    int records = n * (1 + random_below(&state, 3)), each = 3 + 2 * n, count = (LENT_ROOM - 7) / each;
    if (count > MOST_QUESTIONS)
        count = MOST_QUESTIONS;
    any_tags(out, n, &state);
    for (int i = 0, asked = 0; i < records; i++) {
        random_record(out, n, 70, 20, &state);
        while (asked < count && asked * records < i * count) {
            why(out, random_below(&state, n), random_below(&state, n));
            asked++;
        }
    }
    end(out);
}

/* 4,000 records and 1,000 questions between them: few explains, since room is needed for each. */
static void make_questions(struct bytes *out, int n, uint64_t seed, long index)
{
    uint64_t state = state_of(seed, index);
    any_tags(out, n, &state);
    for (int i = 1; i <= MOST_RECORDS; i++) {
        random_record(out, n, 85, 20, &state);
        if (i % 4 == 0) {
            int s = random_below(&state, n), t = random_below(&state, n);
            if (i % 400 == 0)
                explain(out, s, t);
            else
                ask(out, s, t);
        }
    }
    end(out);
}

/* 4,000 records over few tags, then as many explains as 60,000 bytes of room allow. */
static void make_explains(struct bytes *out, int n, uint64_t seed, long index)
{
    uint64_t state = state_of(seed, index);
    int each = 3 + 4 * (n - 1), count = (LENT_ROOM - 7) / each;
    tags(out, n);
    for (int i = 0; i < MOST_RECORDS; i++)
        random_record(out, n, i < 3000 ? 100 : 98, 10, &state);
    for (int i = 0; i < count && i < MOST_QUESTIONS; i++)
        explain(out, random_below(&state, n), random_below(&state, n));
    end(out);
}

/* Applications only, nothing ever equal: the closure alone, with 4N records and 1,000 asks. */
static void make_quiet(struct bytes *out, int n, uint64_t seed, long index)
{
    uint64_t state = state_of(seed, index);
    tags(out, n);
    for (int i = 0; i < 4 * n; i++)
        apply(out, i % n, (i + i / n) % n, (i * 7) % n);
    for (int i = 0; i < MOST_QUESTIONS; i++)
        ask(out, random_below(&state, n), random_below(&state, n));
    end(out);
}

/* A chain of all tags but the last, each of 500 pairs with that one, so that all hold, 06 between the records as room allows; at the end
   the last tag joins the chain, and the first pair is broken by all of it. */
static void make_pairs(struct bytes *out, int n, uint64_t seed, long index)
{
    uint64_t state = state_of(seed, index);
    int high = n > 2 ? n - 1 : 1, pairs = n > 1 ? 500 : 0;
    tags(out, n);
    for (int i = 0; i < pairs; i++)
        differ(out, i * 7 % high, n - 1);
    for (int i = 0; i < 200; i++)
        broken(out);
    for (int i = 0; i + 1 < high; i++) {
        equal(out, i, i + 1);
        if (i % 250 == 249)
            broken(out);
    }
    broken(out);
    if (n > 1)
        equal(out, random_below(&state, high), n - 1);
    broken(out);
    broken(out);
    end(out);
}

const struct kind kinds[] = {
    {"small", "random small jobs, questions anywhere", 12, make_small, NULL},
    {"differ", "the same with pairs that must differ and 06", 12, make_differ, NULL},
    {"sheets", "the same in edition 2", 12, make_sheets, NULL},
    {"faulty", "small jobs with one fault", 12, make_faulty, NULL},
    {"garbage", "random bytes, mostly meaningful ones", 12, make_garbage, NULL},
    {"cut", "every truncation of five small jobs", 0, make_cut, cut_cases},
    {"byte", "every single byte changed in five small jobs", 0, make_byte, byte_cases},
    {"limit", "both sides of every limit", 0, make_limit, limit_cases},
    {"chain", "0=1, 1=2, ..", 1000, make_chain, NULL},
    {"chain-back", "the same from the last to the first", 1000, make_chain_back, NULL},
    {"chain-shuffled", "the same shuffled", 1000, make_chain_shuffled, NULL},
    {"tower", "two towers f(x,x)=x', then their feet equal", 1000, make_tower, NULL},
    {"tower-back", "the same from the last to the first", 1000, make_tower_back, NULL},
    {"tower-shuffled", "the same shuffled", 1000, make_tower_shuffled, NULL},
    {"collapse", "one tower, then its two lowest equal", 1000, make_collapse, NULL},
    {"fibonacci", "two towers, each tag resting on the two below", 1000, make_fibonacci, NULL},
    {"bound", "a reason at the bound: f(i+1,i)=i, f(i+1,i)=i+1", 1000, make_bound, NULL},
    {"bound-apart", "at the bound with classes left: the same over some of the tags", 1000, make_bound_apart, NULL},
    {"bound-sheets", "at the bound, each record on a sheet of its own", 1000, make_bound_sheets, NULL},
    {"bound-deep", "at the bound, each join resting on all before", 1000, make_bound_deep, NULL},
    {"bound-back", "the same from the last to the first", 1000, make_bound_back, NULL},
    {"redundant", "each link of a chain said three ways, shuffled", 1000, make_redundant, NULL},
    {"shapes", "many applications of one shape, shuffled", 1000, make_shapes, NULL},
    {"dense", "4N random records, questions between", 1000, make_dense, NULL},
    {"dense-sheets", "the same in edition 2, on any sheets", 700, make_dense_sheets, NULL},
    {"questions", "4,000 random records, 1,000 questions", 1000, make_questions, NULL},
    {"explains", "4,000 records over few tags, hundreds of explains", 25, make_explains, NULL},
    {"whys", "random records, whys between them up to 60,000 bytes of room", 1000, make_whys, NULL},
    {"quiet", "applications only, 1,000 asks", 1000, make_quiet, NULL},
    {"pairs", "a chain, 500 pairs that hold, and 06", 1000, make_pairs, NULL},
    {NULL, NULL, 0, NULL, NULL}};

const struct kind *kind_named(const char *name, int *size)
{
    const char *colon = strchr(name, ':');
    size_t length = colon == NULL ? strlen(name) : (size_t)(colon - name);
    for (const struct kind *kind = kinds; kind->name != NULL; kind++)
        if (strlen(kind->name) == length && strncmp(kind->name, name, length) == 0) {
            *size = colon == NULL ? kind->size : atoi(colon + 1);
            return kind->size == 0 || (*size >= 1 && *size <= MOST_TAGS) ? kind : NULL;
        }
    return NULL;
}
