/* The self-tests: the two closures against each other, the points of a reason against all subsets, the judge against right
   answers and against wrong ones. Rests on answers.h, damage.h and kinds.h. */
#include "selfcheck.h"
#include "damage.h"
#include "kinds.h"
#include "passes.h"
#include "random.h"

#include <stdio.h>
#include <stdlib.h>
#include <string.h>

static long cases, wrong, wrong_before;

static void expect(int holds, const char *what)
{
    cases++;
    if (holds)
        return;
    if (wrong++ - wrong_before < 5)
        printf("wrong: %s\n", what);
}

static void done(const char *name)
{
    static long all;
    printf("%s: cases %ld wrong %ld\n", name, cases - all, wrong - wrong_before);
    all = cases;
    wrong_before = wrong;
}

static const struct kind *kind(const char *name)
{
    int size;
    return kind_named(name, &size);
}

static struct job job;
static struct history history, other_history;
static struct bytes made;

static int make(const char *name, int size, uint64_t seed, long index)
{
    made.length = 0;
    kind(name)->make(&made, size, seed, index);
    job_read(&job, made.at, made.length);
    return job.number == 0;
}

/* ---- the two closures ---- */

static void compare_closures(struct closure *closure)
{
    struct relation relation;
    int numbers[LITERAL_RECORDS];
    closure_start(closure, job.tags);
    for (int k = 0; k <= job.records; k++) {
        if (k > 0) {
            numbers[k - 1] = k;
            size_t mark = closure_mark(closure); /* in, out and in again */
            closure_add(closure, &job.record[k]);
            if (k + 1 <= job.records)
                closure_add(closure, &job.record[k + 1]);
            closure_back(closure, mark);
            closure_add(closure, &job.record[k]);
        }
        literal_close(&relation, job.tags, job.record, numbers, k);
        int same = 1, classes = 0;
        for (int x = 0; x < job.tags; x++) {
            int leader = 0;
            while (!literal_same(&relation, x, leader))
                leader++;
            classes += leader == x;
            same &= leader == closure_leader(closure, x);
            for (int y = 0; y < job.tags; y++)
                same &= literal_same(&relation, x, y) == closure_same(closure, x, y);
        }
        expect(same && classes == closure_classes(closure), "the two closures differ");
    }
}

static void closures(void)
{
    struct closure *closure = closure_new();
    for (long i = 0; i < 3000; i++)
        if (make("small", 12, 101, i))
            compare_closures(closure);
    for (long i = 0; i < 12; i++)
        if (make("dense", 20 + 4 * (int)i, 102, i))
            compare_closures(closure);
    static const char *const large[] = {"chain-shuffled", "tower", "tower-back", "tower-shuffled", "collapse", "fibonacci",
                                        "bound", "bound-apart", "bound-deep", "bound-back", "redundant", "shapes", "quiet"};
    for (size_t i = 0; i < sizeof large / sizeof *large; i++)
        if (make(large[i], 40, 103, 0))
            compare_closures(closure);
    free(closure);
    done("the two closures");
}

static void histories(void)
{
    for (long i = 0; i < 6000; i++) {
        if (i < 5900 ? !make(i % 2 ? "differ" : "small", 12, 104, i) : !make("dense", 16 + (int)i % 40, 105, i))
            continue;
        history_of(&history, &job, LITERALLY);
        history_of(&other_history, &job, BY_USE_LISTS);
        int same = history.classes == other_history.classes && history.idle == other_history.idle &&
                   history.joined_nothing == other_history.joined_nothing;
        for (int k = 1; k <= job.records; k++)
            same &= history.is_idle[k] == other_history.is_idle[k];
        for (int q = 0; q < job.questions; q++) {
            const struct moment *one = &history.moment[q], *two = &other_history.moment[q];
            same &= one->pair == two->pair && one->follows == two->follows && one->leader_s == two->leader_s && one->leader_t == two->leader_t &&
                    one->first == two->first && one->classes == two->classes;
        }
        expect(same, "the two histories differ");
    }
    done("the two histories");
}

/* ---- a job without its idle records ---- */

static int same_sets(const struct relation *one, const struct relation *other, int tags)
{
    int same = 1;
    for (int x = 0; x < tags; x++)
        for (int y = 0; y < tags; y++)
            same &= literal_same(one, x, y) == literal_same(other, x, y);
    return same;
}

/* Leaving out all idle records changes no class at the end, and an idle record joins nothing; leaving out those that joined nothing
   does change classes, in some job. */
static void idle_records(void)
{
    static struct relation all, left, joining;
    int numbers[LITERAL_RECORDS], busy[LITERAL_RECORDS], joiners[LITERAL_RECORDS], lost = 0;
    for (long i = 0; i < 6000; i++) {
        if (!make("small", 8, 112, i))
            continue;
        int kept = 0, made_joins = 0;
        struct relation before, after;
        history_of(&history, &job, LITERALLY);
        for (int k = 1; k <= job.records; k++) {
            numbers[k - 1] = k;
            if (!history.is_idle[k])
                busy[kept++] = k;
            literal_close(&before, job.tags, job.record, numbers, k - 1);
            literal_close(&after, job.tags, job.record, numbers, k);
            if (!same_sets(&before, &after, job.tags)) {
                expect(!history.is_idle[k], "an idle record joined something");
                joiners[made_joins++] = k;
            }
        }
        literal_close(&all, job.tags, job.record, numbers, job.records);
        literal_close(&left, job.tags, job.record, busy, kept);
        literal_close(&joining, job.tags, job.record, joiners, made_joins);
        expect(same_sets(&all, &left, job.tags), "a class changed when the idle records were left out");
        lost += !same_sets(&all, &joining, job.tags);
    }
    expect(lost > 0, "no job lost a join with the records that joined nothing");
    done("jobs without their idle records");
}

/* ---- reasons against the definition over all subsets ---- */

static int entails(int s, int t, unsigned subset)
{
    struct relation relation;
    int numbers[16], count = 0;
    for (int k = 1; k <= job.records; k++)
        if (subset >> (k - 1) & 1)
            numbers[count++] = k;
    literal_close(&relation, job.tags, job.record, numbers, count);
    return literal_same(&relation, s, t);
}

/* Every set of records before the question: a reason exactly if it entails, no smaller part of it does, and its last is the
   first k. That it has at most 2(N-C) numbers must then come by itself, and that 2(N-1) are met with one class only; both are
   met, the first with more classes than one too. */
static int met_with_one, met_with_more;

static void all_subsets(int question, const unsigned char *entailing, int s, int t)
{
    const struct question *q = &job.question[question];
    int first = 0;
    while (first <= q->before && !entailing[(1u << first) - 1])
        first++;
    for (unsigned subset = 0; subset < 1u << q->before; subset++) {
        int numbers[16], count = 0, right = entailing[subset];
        for (unsigned part = subset; right && part > 0;) {
            part = (part - 1) & subset;
            if (entailing[part])
                right = 0;
        }
        for (int k = 1; k <= q->before; k++)
            if (subset >> (k - 1) & 1)
                numbers[count++] = k;
        if (right && s != t)
            right = numbers[count - 1] == first;
        int classes = history.moment[question].classes, most = 2 * (job.tags - classes);
        expect(!right || count <= most, "a list of which none can be spared is longer than 2(N-C)");
        expect(!right || count == 0 || count < 2 * (job.tags - 1) || classes == 1, "2(N-1) numbers with more than one class");
        met_with_one += right && count > 0 && count == most && classes == 1;
        met_with_more += right && count > 0 && count == most && classes > 1;
        expect(right == (reason_fault(&job, &history, question, numbers, count) == 0), "a list is judged wrongly, literally");
        expect(right == (reason_fault(&job, &other_history, question, numbers, count) == 0),
               "a list is judged wrongly, by use lists");
    }
}

static void subsets(void)
{
    static unsigned char entailing[1 << 9];
    for (long i = 0; i < 4000; i++) {
        if (!make(i % 4 ? "small" : "differ", 6, 106, i) || job.records > 9)
            continue;
        history_of(&history, &job, LITERALLY);
        history_of(&other_history, &job, BY_USE_LISTS);
        for (int q = 0; q < job.questions && q < 3; q++) {
            int s = history.moment[q].s, t = history.moment[q].t;
            for (unsigned subset = 0; subset < 1u << job.records; subset++)
                entailing[subset] = (unsigned char)entails(s, t, subset);
            all_subsets(q, entailing, s, t);
        }
    }
    expect(met_with_one > 0 && met_with_more > 0, "the bound of 2(N-C) numbers is not met");
    done("every list of small jobs");
}

/* ---- the judge of reports ---- */

static void use_damaged(const struct damaged *damaged, void *with)
{
    char what[128];
    long place, other_place;
    (void)with;
    int said = report_judge(&job, &history, damaged->report.at, damaged->report.length, &place);
    int other = report_judge(&job, &other_history, damaged->report.at, damaged->report.length, &other_place);
    int right = said == other && place == other_place;
    if (damaged->sure)
        right &= damaged->place < 0 ? said == 0 && place == 0 : said == 10 && place == damaged->place;
    else
        right &= said == 0 || place >= damaged->place;
    snprintf(what, sizeof what, "%s: said %d %ld and %d %ld", damaged->what, said, place, other, other_place);
    expect(right, what);
}

static void reports_of(enum way one, enum way other, uint64_t seed, int damaged)
{
    struct bytes report = {0};
    long place;
    history_of(&history, &job, one);
    history_of(&other_history, &job, other);
    for (uint64_t order = 0; order < 3; order++) {
        report.length = 0;
        report_write(&job, order % 2 ? &history : &other_history, order * seed, &report);
        expect((long)report.length <= job.needed, "a report is longer than its needed room");
        expect(report_judge(&job, &history, report.at, report.length, &place) == 0 && place == 0, "a right report is refused");
        expect(report_judge(&job, &other_history, report.at, report.length, &place) == 0, "a right report is refused");
    }
    if (damaged)
        each_damage(&job, &history, &report, seed, use_damaged, NULL);
    free(report.at);
}

static void reports(void)
{
    for (long i = 0; i < 2000; i++)
        if (make(i % 2 ? "differ" : "small", 12, 107, i))
            reports_of(LITERALLY, BY_USE_LISTS, (uint64_t)i + 1, i < 600);
    done("reports, right and damaged");
    for (const struct kind *each = kinds; each->name != NULL; each++)
        if (each->size == 1000 && make(each->name, 1000, 108, 0))
            reports_of(BY_USE_LISTS, BY_USE_LISTS, 109, 0);
    done("reports of large jobs");
}

/* ---- the judge of texts ---- */

static int text_right(const char *text, size_t length)
{
    const char *what;
    return text_judge(&job, &history, text, length, &what) == 0;
}

static void text_damaged(const struct bytes *text)
{
    char *copy = malloc(text->length + 2);
    int in_list = 0, fields = 0;
    for (size_t i = 0; i < text->length; i++) {
        expect(!text_right((const char *)text->at, i), "a cut text is accepted");
        int line_start = i == 0 || text->at[i - 1] == '\n';
        if (line_start) {
            in_list = text->at[i] == 'E' ? 3 : text->at[i] == 'C' ? 2 : 0;
            fields = 0;
        }
        fields += text->at[i] == ' ';
        memcpy(copy, text->at, text->length);
        copy[i] = (char)(copy[i] == '9' ? '8' : copy[i] + 1);
        if (!(in_list > 0 && fields > in_list))
            expect(!text_right(copy, text->length), "a changed text is accepted");
        if (text->at[i] == ' ') { /* a space doubled, a leading zero */
            memmove(copy + i + 1, text->at + i, text->length - i);
            memcpy(copy, text->at, i + 1);
            expect(!text_right(copy, text->length + 1), "a text with two spaces is accepted");
            copy[i + 1] = '0';
            expect(!text_right(copy, text->length + 1), "a text with a leading zero is accepted");
        }
    }
    memcpy(copy, text->at, text->length);
    copy[text->length] = '\n';
    expect(!text_right(copy, text->length + 1), "a text with a spare line is accepted");
    free(copy);
}

static void texts(void)
{
    struct bytes text = {0};
    for (long i = 0; i < 1500; i++) {
        if (i % 3 == 0 ? make("faulty", 12, 110, i) : make(i % 3 == 1 ? "small" : "differ", 12, 111, i))
            history_of(&history, &job, way_for(&job));
        text.length = 0;
        lines_write(&job, &history, &text);
        expect(text_right((const char *)text.at, text.length), "a right text is refused");
        text_damaged(&text);
    }
    free(text.at);
    done("texts, right and damaged");
}

/* ---- named cases, by hand ---- */

static int list_fault(const struct record *records, int count, int tags, int s, int t, const int *numbers, int length)
{
    memset(&job, 0, sizeof job);
    job.tags = tags;
    job.records = count;
    for (int i = 0; i < count; i++)
        job.record[i + 1] = records[i];
    job.questions = 1;
    job.question[0] = (struct question){1, s, t, count, 0, 0, 0};
    history_of(&history, &job, LITERALLY);
    history_of(&other_history, &job, BY_USE_LISTS);
    int one = reason_fault(&job, &history, 0, numbers, length);
    return one == reason_fault(&job, &other_history, 0, numbers, length) ? one : -1;
}

#define LIST_FAULT(records, tags, s, t, ...)                                                                                  \
    list_fault(records, (int)(sizeof records / sizeof *records), tags, s, t, (int[]){__VA_ARGS__},                             \
               (int)(sizeof((int[]){__VA_ARGS__}) / sizeof(int)))

static void named_lists(void)
{
    const struct record spare[] = {{0, 0, 1, 0, 0}, {0, 2, 3, 0, 0}, {0, 1, 2, 0, 0}};
    expect(LIST_FAULT(spare, 4, 0, 2, 1, 3) == 0, "0=1, 2=3, 1=2: the list 1 3");
    expect(LIST_FAULT(spare, 4, 0, 2, 1, 2, 3) == POINT_SPARE, "0=1, 2=3, 1=2: the list 1 2 3");
    expect(LIST_FAULT(spare, 4, 0, 2, 3) == POINT_ENTAILS, "0=1, 2=3, 1=2: the list 3");
    expect(LIST_FAULT(spare, 4, 0, 2, 3, 1) == POINT_RISING, "0=1, 2=3, 1=2: the list 3 1");
    expect(LIST_FAULT(spare, 4, 0, 2, 1, 1, 3) == POINT_RISING, "0=1, 2=3, 1=2: the list 1 1 3");
    expect(LIST_FAULT(spare, 4, 0, 2, 0, 1, 3) == POINT_RISING, "0=1, 2=3, 1=2: the list 0 1 3");
    expect(LIST_FAULT(spare, 4, 0, 2, 1, 3, 4) == POINT_RISING, "0=1, 2=3, 1=2: the list 1 3 4");
    expect(LIST_FAULT(spare, 4, 0, 0, 1) == POINT_LAST, "0 and 0: the list 1");
    expect(list_fault(spare, 3, 4, 0, 0, NULL, 0) == 0, "0 and 0: the empty list");
    const struct record twice[] = {{0, 0, 1, 0, 0}, {0, 1, 2, 0, 0}, {0, 0, 2, 0, 0}};
    expect(LIST_FAULT(twice, 3, 0, 2, 1, 2) == 0, "0=1, 1=2, 0=2: the list 1 2");
    expect(LIST_FAULT(twice, 3, 0, 2, 3) == POINT_LAST, "0=1, 1=2, 0=2: the list 3");
    const struct record both[] = {{1, 0, 0, 1, 0}, {1, 1, 1, 2, 0}, {0, 0, 1, 0, 0}};
    expect(LIST_FAULT(both, 3, 0, 2, 1, 2, 3) == 0, "f(0,0)=1, f(1,1)=2, 0=1: the list 1 2 3");
    expect(LIST_FAULT(both, 3, 0, 2, 1, 2) == POINT_ENTAILS, "f(0,0)=1, f(1,1)=2, 0=1: the list 1 2");
}

static void named_inspector(void)
{
    static const char lines[] = "N 2 3\nS 0 3 0\nE 0 3 5 1 2 3 4 5\nD 0 4 0 4\nE 2 1 3 1 2 4\nE 4 4 0\nT 4 0\n";
    struct bytes text = {0}, report = {0};
    made.length = 0;
    inspectors_job(&made);
    job_read(&job, made.at, made.length);
    history_of(&history, &job, LITERALLY);
    lines_write(&job, &history, &text);
    report_write(&job, &history, 0, &report);
    expect(made.length == 89 && job.number == 0, "the inspector's job has 89 bytes");
    expect(text.length == sizeof lines - 1 && memcmp(text.at, lines, text.length) == 0, "the inspector's lines");
    expect(job.needed == 69 && report.length == 49, "the inspector's report takes 49 of 69 bytes");
    expect(run_number(&job, 4000, 32768, 69) == 0 && run_number(&job, 4000, 32768, 68) == 9, "68 bytes of room give 9");
    expect(run_number(&job, 3999, 32768, 69) == 2 && run_number(&job, 4000, 32767, 0) == 2, "a short table gives 2");
    job.number = 1;
    expect(run_number(&job, 0, 0, 0) == 1, "1 comes before 2");
    job.number = 3;
    expect(run_number(&job, 0, 32768, 0) == 2 && run_number(&job, 4000, 32768, 0) == 3, "2 comes before 3, 3 before 9");
    free(text.at);
    free(report.at);
}

/* ---- passes ---- */

/* The passes end in the classes that follow from all records, in at most N-1 that change something; the limit is told exactly, and 9 before 19. */
static void passes_end(struct closure *closure)
{
    static struct passes all, some;
    closure_start(closure, job.tags);
    for (int k = 1; k <= job.records; k++)
        closure_add(closure, &job.record[k]);
    passes_of(&all, &job, 2L * job.tags, job.tags - 1);
    expect(all.number == 0 && all.count <= job.tags - 1, "at most N-1 passes change something");
    int right = 1;
    for (int x = 0; x < job.tags && right; x++) {
        int units = 0, leads = all.leader[x];
        right = closure_same(closure, x, leads);
        for (int y = 0; y < job.tags && right; y++) {
            if (!closure_same(closure, x, y))
                continue;
            if (y >= job.units)
                units = 1;
            right = all.leader[y] == leads && (leads >= job.units ? y < job.units || leads <= y : leads <= y);
        }
        right = right && (leads >= job.units || !units);
    }
    expect(right, "the leaders are those of the closure of all records");
    passes_of(&some, &job, 2L * job.tags, all.count);
    expect(some.number == 0 && some.count == all.count && memcmp(some.leader, all.leader, sizeof all.leader) == 0, "the count is a limit that is enough");
    if (all.count > 0) {
        passes_of(&some, &job, 2L * job.tags, all.count - 1);
        expect(some.number == 19, "one pass less gives 19");
    }
    passes_of(&some, &job, 2L * job.tags - 1, 0);
    expect(some.number == 9, "a byte of room less gives 9, before 19");
}

static void passes(void)
{
    struct closure *closure = closure_new();
    for (uint64_t seed = 401; seed < 901; seed++) {
        if (make("small", 8, seed, 0))
            passes_end(closure);
        if (make("differ", 8, seed, 0))
            passes_end(closure);
    }
    free(closure);
    done("passes");
}

int selfcheck(void)
{
    named_lists();
    named_inspector();
    done("named cases");
    closures();
    histories();
    idle_records();
    subsets();
    reports();
    texts();
    passes();
    return wrong > 0;
}
