/* What crates/all_close, reason_follow, reason_list and reason_trim do, loop for loop in C over the same work table, with every step counted. For bench/worst, which looks for bad jobs: a count is the same on
   every machine and in every run. A job that is accepted; nothing is checked.

   17,003  LIST    2,000  by place   record numbers; 0 where one was left out
   19,003  MEMBER  1,000  by tag     the next tag of its class
   20,003  WEIGHT  1,000  by tag     of a label: how heavy its class is
   21,003  LABEL   1,000  by tag     the label of its class
   22,003  TRAIL   1,000  by join    the label that went
   23,003  ENDS    2 of 1,000        one more than the last place whose application has the tag for its first (second) argument
   25,003  BEFORE  2 of 2,000        the same of the places before it
   29,003  QUEUE   2,000  by place   0: not in; 1: in; 2 and more: waits */
#include <stdint.h>
#include <string.h>

enum { LEFT = 0, RIGHT = 4001, RESULT = 8002, PARENT = 12003, AGE = 13003, FIRST = 14003, SECOND = 15003, WHEN = 16003, LIST = 17003, MEMBER = 19003, WEIGHT = 20003, LABEL = 21003, TRAIL = 22003, NEXT = 22003,
       ENDS = 23003, BEFORE = 25003, QUEUE = 29003, MORE = 17003, OTHER = 22003, CHAIN = 26003, BUCKETS = 30003, USES = 30764, SHARES = 31764, NB = 761, EQUATION = 65535, LEADS = 1000, WAITS = 4002 };
static uint16_t work[32768], marks[1000], order[1000], noted[4001];
static int tags, records, taken;
static struct { long closing, following, trimming; } steps;
#define W(r, i) work[(r) + (i)]

/* ---- closing all records: crates/all_index, all_join, all_settle, all_close ---- */
static uint32_t key(int r) { return W(LABEL, W(LEFT, r)) * 65536u + W(LABEL, W(RIGHT, r)); }

static int above(int b, int j)
{
    int q = 0, p = W(BUCKETS, b);
    while (j + 1 < p) {
        steps.closing++;
        q = p;
        p = W(CHAIN, p - 1) - 1;
    }
    return q;
}

static int behind(int b, int q) { return q == 0 ? W(BUCKETS, b) : W(CHAIN, q - 1) - 1; }

static void lead(int b, int q, int p)
{
    if (q == 0)
        W(BUCKETS, b) = p;
    else
        W(CHAIN, q - 1) = p + 1;
}

static int touch(int j, int f)
{
    int c = W(CHAIN, j), b, q;
    if (c == 0 || c >= WAITS)
        return f;
    b = key(j + 1) % NB;
    q = above(b, j);
    if (behind(b, q) == j + 1)
        lead(b, q, c - 1);
    W(CHAIN, j) = f + WAITS;
    return j + 1;
}

static int leader_of(int r)
{
    int x = 0;
    if (W(AGE, r) >= LEADS)
        return r;
    while (x < r && W(LABEL, x) != r) {
        steps.closing++;
        x++;
    }
    return x;
}

static int joined(int n, int waiting, int one, int another, int a, int b, int when)
{
    int x = leader_of(a), y = leader_of(b), fewer = W(AGE, x) == W(AGE, y) ? y < x : W(AGE, x) < W(AGE, y);
    int kept = fewer ? b : a, gone = fewer ? a : b, from = fewer ? x : y, to = W(PARENT, from), lo = x < y ? x : y, hi = x < y ? y : x;
    int top = W(PARENT, x) < W(PARENT, y) ? W(PARENT, y) : W(PARENT, x), weight = W(AGE, x) + W(AGE, y) - 999;
    for (int z = from; z <= to; z++) {
        steps.closing++;
        if (W(LABEL, z) != gone)
            continue;
        for (int p = W(USES, z); p; p = W(MORE, p - 1))
            waiting = touch(p - 1, waiting);
        for (int p = W(SHARES, z); p; p = W(OTHER, p - 1))
            waiting = touch(p - 1, waiting);
    }
    for (int z = from; z <= to; z++)
        W(LABEL, z) = W(LABEL, z) == gone ? kept : W(LABEL, z);
    W(PARENT, hi) = lo;
    W(AGE, hi) = n;
    W(FIRST, n) = one;
    W(SECOND, n) = another;
    W(WHEN, n) = when;
    W(PARENT, lo) = top;
    W(AGE, lo) = weight;
    return waiting;
}

static int admit(int i, int n)
{
    int r = i + 1, w = r;
    if (W(RESULT, r) == EQUATION) {
        int a = W(LABEL, W(LEFT, r)), b = W(LABEL, W(RIGHT, r));
        W(CHAIN, i) = 1;
        if (a == b)
            return n;
        w = joined(n++, 0, r, 0, a, b, r);
    } else {
        W(MORE, i) = W(USES, W(LEFT, r));
        W(USES, W(LEFT, r)) = r;
        W(OTHER, i) = W(SHARES, W(RIGHT, r));
        W(SHARES, W(RIGHT, r)) = r;
        W(CHAIN, i) = WAITS;
    }
    while (w) {
        int j = w - 1, b, p, c, d;
        uint32_t x = key(j + 1);
        b = x % NB;
        p = W(BUCKETS, b);
        while (p && key(p) != x) {
            steps.closing++;
            p = W(CHAIN, p - 1) - 1;
        }
        if (!p) {
            int q = above(b, j);
            w = W(CHAIN, j) - WAITS;
            W(CHAIN, j) = behind(b, q) + 1;
            lead(b, q, j + 1);
            continue;
        }
        c = W(LABEL, W(RESULT, p));
        d = W(LABEL, W(RESULT, j + 1));
        if (c == d) {
            w = W(CHAIN, j) - WAITS;
            W(CHAIN, j) = 1;
            continue;
        }
        w = joined(n++, j + 1, p, j + 1, c, d, r);
    }
    return n;
}

static int close_all(void)
{
    int n = 0;
    for (int x = 0; x < 1000; x++) {
        W(AGE, x) = LEADS;
        W(LABEL, x) = W(PARENT, x) = x;
    }
    memset(work + CHAIN, 0, 2 * (32768 - CHAIN));
    for (int i = 0; i < records; i++)
        n = admit(i, n);
    return n;
}

/* ---- following: crates/moment, reason_follow ---- */
static int leader(int age, int x)
{
    while (W(AGE, x) < age) {
        steps.following++;
        x = W(PARENT, x);
    }
    return x;
}

static int lift(int top, int *x, int left)
{
    int newest = 0;
    while (W(AGE, left) < top) {
        steps.following++;
        left = W(PARENT, left);
        newest = W(AGE, *x);
        *x = W(PARENT, *x);
    }
    return newest;
}

static int met_before(int top, int s, int t)
{
    int x = s, y = t, a, b, newest;
    while (W(AGE, x) < top && W(AGE, y) < top) {
        steps.following++;
        x = W(PARENT, x);
        y = W(PARENT, y);
    }
    a = lift(top, &s, x);
    b = lift(top, &t, y);
    newest = a < b ? b : a;
    while (s != t) {
        a = W(AGE, s);
        b = W(AGE, t);
        steps.following++;
        if (a >= top)
            return top;
        newest = a < b ? b : a;
        s = W(PARENT, s);
        t = W(PARENT, t);
    }
    return newest;
}

static int met(int s, int t) { return met_before(1000, s, t); }

static int first_end(int b) { return W(SECOND, b) ? W(RESULT, W(FIRST, b)) : W(LEFT, W(FIRST, b)); }

static int second_end(int b) { return W(SECOND, b) ? W(RESULT, W(SECOND, b)) : W(RIGHT, W(FIRST, b)); }

static int near_end(int v) { return v < 1000 ? first_end(v) : second_end(v - 1000); }

static int far_end(int v) { return v < 1000 ? second_end(v) : first_end(v - 1000); }

static void take(int b)
{
    if (marks[b] == 1)
        return;
    order[taken++] = b;
    marks[b] = 1;
}

static void note(int x, int y) /* vector code: eight labels a step */
{
    int gone = W(LABEL, x), kept = W(LABEL, y);
    steps.following += 1000 / 8;
    for (int z = 0; z < 1000; z++)
        W(LABEL, z) = W(LABEL, z) == gone ? kept : W(LABEL, z);
}

static void pass(int s, int t, int limit)
{
    int at = s, to = t, below = limit, n = 0;
    while (W(LABEL, at) != W(LABEL, t)) {
        if (W(LABEL, at) == W(LABEL, to)) {
            int v = W(NEXT, --n);
            below = v % 1000;
            take(below);
            note(near_end(v), far_end(v));
            at = far_end(v);
            to = n ? near_end(W(NEXT, n - 1)) : t;
        } else {
            below = met_before(below, at, to);
            W(NEXT, n) = leader(below, at) == leader(below, first_end(below)) ? below : 1000 + below;
            to = near_end(W(NEXT, n++));
        }
    }
}

static void trace(int s, int t, int limit)
{
    memset(marks, 0, sizeof marks);
    taken = 0;
    for (int x = 0; x < 1000; x++)
        W(LABEL, x) = x;
    pass(s, t, limit);
    for (int b = limit - 1; b >= 0; b--)
        if (marks[b] == 1 && W(SECOND, b)) {
            pass(W(LEFT, W(FIRST, b)), W(LEFT, W(SECOND, b)), b);
            pass(W(RIGHT, W(FIRST, b)), W(RIGHT, W(SECOND, b)), b);
        }
}

/* ---- listing ---- */
static int put(int r, int n)
{
    if (noted[r])
        return n;
    noted[r] = 1;
    W(LIST, n) = r;
    return n + 1;
}

static int list_marked(void)
{
    int n = 0;
    memset(noted, 0, sizeof noted);
    for (int i = 0; i < taken; i++) {
        n = put(W(FIRST, order[i]), n);
        if (W(SECOND, order[i]))
            n = put(W(SECOND, order[i]), n);
    }
    return n;
}

/* ---- trimming: crates/list_rings, list_add, list_halve ---- */
static int joins, first, last;

static void name(int x, int y)
{
    int z = x;
    do {
        steps.trimming++;
        W(LABEL, z) = y;
        z = W(MEMBER, z);
    } while (z != x);
}

static void swap(int x, int y)
{
    uint16_t k = W(MEMBER, x);
    W(MEMBER, x) = W(MEMBER, y);
    W(MEMBER, y) = k;
}

static void wake(int i)
{
    steps.trimming++;
    if (W(QUEUE, i) == 1) {
        W(QUEUE, i) = last + 2;
        last = i + 1;
    }
}

static void unite(int x, int y)
{
    int z;
    if (W(WEIGHT, x) > W(WEIGHT, y)) {
        z = x;
        x = y;
        y = z;
    }
    z = x;
    do { /* the label comes last */
        z = W(MEMBER, z);
        for (int k = 0; k < 2; k++)
            for (int p = W(ENDS + 1000 * k, z); p; p = W(BEFORE + 2000 * k, p - 1))
                wake(p - 1);
    } while (z != x);
    name(x, y);
    swap(x, y);
    W(WEIGHT, y) += W(WEIGHT, x);
    W(TRAIL, joins++) = x;
}

static int twin(int a, int c)
{
    int k = W(WEIGHT, a) > W(WEIGHT, c), from = k ? c : a, z = from;
    do {
        z = W(MEMBER, z);
        for (int p = W(ENDS + 1000 * k, z); p; p = W(BEFORE + 2000 * k, p - 1)) {
            steps.trimming++;
            if (W(QUEUE, p - 1) == 1 && W(LABEL, W(LEFT, W(LIST, p - 1))) == a && W(LABEL, W(RIGHT, W(LIST, p - 1))) == c)
                return p;
        }
    } while (z != from);
    return 0;
}

static void add(int i)
{
    int r = W(LIST, i);
    if (r == 0)
        return;
    if (W(RESULT, r) == EQUATION) {
        int a = W(LABEL, W(LEFT, r)), c = W(LABEL, W(RIGHT, r));
        W(QUEUE, i) = 1;
        if (a != c)
            unite(a, c);
    } else {
        W(QUEUE, i) = 2;
        first = i + 1;
    }
    for (;;) {
        int j, q, p, c, d;
        if (!first) {
            first = last;
            last = 0;
            if (!first)
                break;
        }
        j = first - 1;
        q = W(LIST, j);
        p = twin(W(LABEL, W(LEFT, q)), W(LABEL, W(RIGHT, q)));
        if (p) {
            c = W(LABEL, W(RESULT, q));
            d = W(LABEL, W(RESULT, W(LIST, p - 1)));
            if (c != d) {
                unite(c, d);
                continue;
            }
        }
        first = W(QUEUE, j) - 2;
        W(QUEUE, j) = 1;
    }
}

static void back(int lo, int hi, int k)
{
    for (int i = lo; i < hi; i++)
        W(QUEUE, i) = 0;
    while (joins > k) {
        int x = W(TRAIL, --joins), y = W(LABEL, x);
        swap(x, y);
        W(WEIGHT, y) -= W(WEIGHT, x);
        name(x, x);
    }
}

static void halve(int lo, int hi, int s, int t)
{
    int mid = (lo + hi) / 2, k = joins;
    if (W(LABEL, s) == W(LABEL, t)) {
        for (int i = lo; i < hi; i++)
            W(LIST, i) = 0;
        return;
    }
    if (hi - lo < 2)
        return;
    for (int i = lo; i < mid; i++)
        add(i);
    halve(mid, hi, s, t);
    back(lo, mid, k);
    for (int i = mid; i < hi; i++)
        add(i);
    halve(lo, mid, s, t);
    back(mid, hi, k);
}

static int trim(int n, int s, int t)
{
    int kept = 0;
    for (int x = 0; x < 1000; x++) {
        W(LABEL, x) = W(MEMBER, x) = x;
        W(WEIGHT, x) = 1;
    }
    memset(work + ENDS, 0, 2 * 8000);
    for (int i = 0; i < n; i++) {
        int r = W(LIST, i), x = W(LEFT, r), y = W(RIGHT, r);
        W(WEIGHT, x)++;
        W(WEIGHT, y)++;
        if (W(RESULT, r) == EQUATION)
            continue;
        W(BEFORE, i) = W(ENDS, x);
        W(ENDS, x) = i + 1;
        W(BEFORE + 2000, i) = W(ENDS + 1000, y);
        W(ENDS + 1000, y) = i + 1;
    }
    joins = first = last = 0;
    halve(0, n, s, t);
    for (int i = 0; i < n; i++)
        if (W(LIST, i))
            W(LIST, kept++) = W(LIST, i);
    return kept;
}

/* The reason for s and t by all records, in the list: how many numbers it has, or -1. */
static int explain(int all, int s, int t)
{
    int b = s == t ? 0 : met(s, t);
    if (s == t)
        return 0;
    if (b >= all)
        return -1;
    trace(s, t, b + 1);
    return trim(list_marked(), s, t);
}
