/* A plain rta05 in C, the yardstick for speed: it reads a job that is accepted (nothing is checked) from standard input and writes
   the report to standard output.

     plain [-f] [-r TIMES] < JOB    -f: trim only where the paper's filter asks for it; -r: do the whole job that many times

   What it does: source document 002, section 3, as printed there. Representatives with class lists, the smaller class joined
   to the larger; use lists; the lookup table as a hash table; the proof forest; Explain with the additional union-find and
   the highest nodes, so that no edge is crossed twice. Then the list is trimmed by deletion, in the order of the joins: each
   record is left out once and the rest closed from nothing, with the same use lists, up to where s and t are joined. This costs
   k closures for a list of k; nothing cleverer is done. With -f a list is trimmed only if three of its applications have
   equal arguments (section 3.6). */
#include <stdint.h>
#include <stdio.h>
#include <stdlib.h>
#include <string.h>

enum { TAGS = 1000, RECORDS = 4000, QUESTIONS = 1000, JOB = 46510 };

struct record {
    int apply, a, b, c;
};
static struct record record[RECORDS + 1];
static unsigned char job[JOB + 1], report[QUESTIONS * (3 + 4 * TAGS) + 7];
static int tags, filtered;

/* ---- the lookup table: two representatives to a record ---- */

struct entry {
    uint32_t key; /* the table's generation in the high 12 bits */
    int32_t record;
};
struct lookup {
    struct entry *entry;
    uint32_t size, used, generation;
};

static void lookup_clear(struct lookup *l, uint32_t wanted)
{
    uint32_t size = 1024;
    while (size < 4 * wanted)
        size *= 2;
    l->used = 0;
    if (size <= l->size && ++l->generation < 4096) {
        return;
    }
    if (size > l->size) {
        free(l->entry);
        l->entry = malloc(size * sizeof *l->entry);
        l->size = size;
    }
    memset(l->entry, 0, l->size * sizeof *l->entry);
    l->generation = 1;
}

static struct entry *lookup_find(const struct lookup *l, uint32_t pair)
{
    uint32_t key = l->generation << 20 | pair;
    uint32_t at = (pair * 2654435761u >> 7) & (l->size - 1);
    while (l->entry[at].key != key && l->entry[at].key >> 20 == l->generation)
        at = (at + 1) & (l->size - 1);
    return &l->entry[at];
}

static void lookup_grow(struct lookup *l)
{
    struct lookup larger = {NULL, 0, 0, 0};
    lookup_clear(&larger, l->size / 2);
    for (uint32_t i = 0; i < l->size; i++)
        if (l->entry[i].key >> 20 == l->generation) {
            uint32_t pair = l->entry[i].key & 0xFFFFF;
            struct entry *e = lookup_find(&larger, pair);
            e->key = larger.generation << 20 | pair;
            e->record = l->entry[i].record;
        }
    larger.used = l->used;
    free(l->entry);
    *l = larger;
}

/* ---- the closure ---- */

struct edge {
    int one, other; /* records: an equation and 0, or two applications */
};
struct closure {
    int rep[TAGS], next[TAGS], size[TAGS], low[TAGS], classes;
    int head[TAGS], tail[TAGS], link[2 * RECORDS + 2]; /* use lists: places 2r and 2r + 1 for record r */
    struct edge pending[24 * RECORDS]; /* a use is walked at most 2 log N times */
    int waiting;
    struct lookup lookup;
    int forest; /* whether the proof forest is kept */
    int parent[TAGS], age[TAGS], joins;
    struct edge label[TAGS];
};
static struct closure all, rest;

static void start(struct closure *c, int records)
{
    for (int x = 0; x < tags; x++) {
        c->rep[x] = c->next[x] = c->low[x] = x;
        c->size[x] = 1;
        c->head[x] = -1;
        c->parent[x] = -1;
    }
    c->classes = tags;
    c->joins = 0;
    lookup_clear(&c->lookup, (uint32_t)records);
}

static void look_up(struct closure *c, int r)
{
    uint32_t pair = (uint32_t)(c->rep[record[r].a] * TAGS + c->rep[record[r].b]);
    struct entry *e = lookup_find(&c->lookup, pair);
    if (e->key >> 20 == c->lookup.generation) {
        if (c->rep[record[e->record].c] != c->rep[record[r].c])
            c->pending[c->waiting++] = (struct edge){r, e->record};
        return;
    }
    e->key = c->lookup.generation << 20 | pair;
    e->record = r;
    if (++c->lookup.used > c->lookup.size / 2)
        lookup_grow(&c->lookup);
}

static void add_edge(struct closure *c, int a, int b, struct edge label)
{
    int age = c->joins;
    for (int x = a, to = b; x >= 0;) { /* the edges from a to its root are reversed */
        int up = c->parent[x], up_age = c->age[x];
        struct edge up_label = c->label[x];
        c->parent[x] = to;
        c->label[x] = label;
        c->age[x] = age;
        to = x;
        x = up;
        label = up_label;
        age = up_age;
    }
}

static void join(struct closure *c, struct edge why)
{
    int a = why.other ? record[why.one].c : record[why.one].a;
    int b = why.other ? record[why.other].c : record[why.one].b;
    if (c->rep[a] == c->rep[b])
        return;
    if (c->size[c->rep[a]] > c->size[c->rep[b]]) {
        int kept = a;
        a = b;
        b = kept;
    }
    int old = c->rep[a], new = c->rep[b], x = old;
    if (c->forest)
        add_edge(c, a, b, why);
    c->joins++;
    do {
        c->rep[x] = new;
        x = c->next[x];
    } while (x != old);
    x = c->next[old];
    c->next[old] = c->next[new];
    c->next[new] = x;
    c->size[new] += c->size[old];
    if (c->low[old] < c->low[new])
        c->low[new] = c->low[old];
    c->classes--;
    if (c->head[old] < 0)
        return;
    for (int place = c->head[old]; place >= 0; place = c->link[place])
        look_up(c, place / 2);
    if (c->head[new] < 0)
        c->head[new] = c->head[old];
    else
        c->link[c->tail[new]] = c->head[old];
    c->tail[new] = c->tail[old];
}

static void add_use(struct closure *c, int x, int place)
{
    c->link[place] = -1;
    if (c->head[x] < 0)
        c->head[x] = place;
    else
        c->link[c->tail[x]] = place;
    c->tail[x] = place;
}

/* Whether record r, which is to be merged, is idle by those before it (document 02, No. 6). */
static int is_idle(struct closure *c, int r)
{
    if (!record[r].apply)
        return c->rep[record[r].a] == c->rep[record[r].b];
    struct entry *e = lookup_find(&c->lookup, (uint32_t)(c->rep[record[r].a] * TAGS + c->rep[record[r].b]));
    return e->key >> 20 == c->lookup.generation && c->rep[record[e->record].c] == c->rep[record[r].c];
}

static void merge(struct closure *c, int r)
{
    c->waiting = 0;
    if (!record[r].apply)
        c->pending[c->waiting++] = (struct edge){r, 0};
    else {
        int a = c->rep[record[r].a], b = c->rep[record[r].b];
        add_use(c, a, 2 * r);
        if (a != b)
            add_use(c, b, 2 * r + 1);
        look_up(c, r);
    }
    while (c->waiting > 0)
        join(c, c->pending[--c->waiting]);
}

/* ---- Explain ---- */

static int above[TAGS];                  /* the additional union-find: towards the highest node of what is explained */
static int seen[TAGS], stamp;            /* for the nearest common ancestor */
static int pairs[4 * TAGS + 4], waiting; /* pending proofs */
static struct edge crossed[TAGS];        /* by age: the labels that were output */
static unsigned char output[TAGS];

static int highest(int x)
{
    while (above[x] != x)
        x = above[x] = above[above[x]];
    return x;
}

static int nearest_common(int a, int b)
{
    stamp++;
    a = highest(a);
    b = highest(b);
    for (;;) { /* both climb in turn until one comes where the other was */
        if (a >= 0) {
            if (seen[a] == stamp)
                return a;
            seen[a] = stamp;
            a = all.parent[a] < 0 ? -1 : highest(all.parent[a]);
        }
        if (b >= 0) {
            if (seen[b] == stamp)
                return b;
            seen[b] = stamp;
            b = all.parent[b] < 0 ? -1 : highest(all.parent[b]);
        }
    }
}

static void along_path(int a, int to)
{
    for (a = highest(a); a != to; a = highest(a)) {
        struct edge label = all.label[a];
        crossed[all.age[a]] = label;
        output[all.age[a]] = 1;
        if (label.other) {
            pairs[waiting++] = record[label.one].a;
            pairs[waiting++] = record[label.other].a;
            pairs[waiting++] = record[label.one].b;
            pairs[waiting++] = record[label.other].b;
        }
        above[a] = all.parent[a];
    }
}

static int add_once(int *list, int count, unsigned char *in, int r)
{
    if (r != 0 && !in[r]) {
        in[r] = 1;
        list[count++] = r;
    }
    return count;
}

/* The records of the joins that explain s and t, in the order of the joins. */
static int explain(int s, int t, int *list)
{
    static unsigned char in[RECORDS + 1];
    int count = 0;
    for (int x = 0; x < tags; x++)
        above[x] = x;
    memset(output, 0, (size_t)all.joins);
    waiting = 0;
    pairs[waiting++] = s;
    pairs[waiting++] = t;
    while (waiting > 0) {
        int b = pairs[--waiting], a = pairs[--waiting];
        int common = nearest_common(a, b);
        along_path(a, common);
        along_path(b, common);
    }
    for (int age = 0; age < all.joins; age++)
        if (output[age]) {
            count = add_once(list, count, in, crossed[age].one);
            count = add_once(list, count, in, crossed[age].other);
        }
    for (int i = 0; i < count; i++)
        in[list[i]] = 0;
    return count;
}

static int joined_without(int s, int t, const int *list, int count, int without)
{
    start(&rest, count);
    for (int i = 0; i < count && rest.rep[s] != rest.rep[t]; i++)
        if (i != without)
            merge(&rest, list[i]);
    return rest.rep[s] == rest.rep[t];
}

/* Whether three applications of the list have equal arguments. */
static int may_be_redundant(const int *list, int count)
{
    static struct lookup shapes;
    lookup_clear(&shapes, (uint32_t)count);
    for (int i = 0; i < count; i++)
        if (record[list[i]].apply) {
            uint32_t pair = (uint32_t)(all.rep[record[list[i]].a] * TAGS + all.rep[record[list[i]].b]);
            struct entry *e = lookup_find(&shapes, pair);
            if (e->key >> 20 != shapes.generation) {
                e->key = shapes.generation << 20 | pair;
                e->record = 0;
            }
            if (++e->record == 3)
                return 1;
        }
    return 0;
}

static int trim(int s, int t, int *list, int count)
{
    if (filtered && !may_be_redundant(list, count))
        return count;
    for (int i = 0; i < count;)
        if (joined_without(s, t, list, count, i)) {
            memmove(list + i, list + i + 1, (size_t)(count - i - 1) * sizeof *list);
            count--;
        } else
            i++;
    return count;
}

/* ---- the job and the report ---- */

static int two(const unsigned char *at)
{
    return at[0] * 256 + at[1];
}

static size_t put(size_t at, int number)
{
    report[at] = (unsigned char)(number / 256);
    report[at + 1] = (unsigned char)(number % 256);
    return at + 2;
}

static size_t put_field(size_t at, int kind, int numbers)
{
    report[at] = (unsigned char)kind;
    return put(at + 1, 2 * numbers);
}

static int by_number(const void *one, const void *other)
{
    return *(const int *)one - *(const int *)other;
}

static size_t put_reason(size_t at, int s, int t)
{
    static int list[2 * TAGS];
    if (all.rep[s] != all.rep[t])
        return put_field(at, 0x85, 0);
    int count = s == t ? 0 : trim(s, t, list, explain(s, t, list));
    qsort(list, (size_t)count, sizeof *list, by_number);
    at = put_field(at, 0x84, count);
    for (int i = 0; i < count; i++)
        at = put(at, list[i]);
    return at;
}

static size_t run(void)
{
    size_t out = 0;
    int records = 0, idle = 0;
    for (const unsigned char *at = job;; at += 3 + two(at + 1)) {
        const unsigned char *body = at + 3;
        switch (at[0]) {
        case 0x10:
            tags = two(body);
            start(&all, RECORDS);
            break;
        case 0x01:
        case 0x02:
            record[++records] = (struct record){at[0] == 2, two(body), two(body + 2), at[0] == 2 ? two(body + 4) : 0};
            idle += is_idle(&all, records);
            merge(&all, records);
            break;
        case 0x03:
            out = put_field(out, 0x83, 2);
            out = put(out, all.low[all.rep[two(body)]]);
            out = put(out, all.low[all.rep[two(body + 2)]]);
            break;
        case 0x04:
            out = put_reason(out, two(body), two(body + 2));
            break;
        default:
            out = put_field(out, 0x8F, 2);
            out = put(out, all.classes);
            return put(out, idle);
        }
    }
}

int main(int argc, char **argv)
{
    long times = 1;
    for (int i = 1; i < argc; i++) {
        if (strcmp(argv[i], "-f") == 0)
            filtered = 1;
        else if (strcmp(argv[i], "-r") == 0 && i + 1 < argc)
            times = strtol(argv[++i], NULL, 10);
        else {
            fprintf(stderr, "plain: plain [-f] [-r TIMES] < JOB\n");
            return 2;
        }
    }
    if (fread(job, 1, sizeof job, stdin) > JOB) {
        fprintf(stderr, "plain: the job is too long\n");
        return 1;
    }
    all.forest = 1;
    size_t length = 0;
    for (long i = 0; i < times; i++)
        length = run();
    fwrite(report, 1, length, stdout);
    return fflush(stdout) != 0;
}
