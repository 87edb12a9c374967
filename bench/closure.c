/* The closure of the tool's crate `history`, loop for loop in C, to hold the tool's time to and to count what it does. It reads a job that is accepted (nothing is checked)
   from standard input, closes its records as `close` does, with no questions answered, and writes one line: records, joins, applications met, the longest chain that was gone through, idle records.

     closure [-r TIMES] < JOB    -r: close the job that many times

   An application is filed by its arguments' labels; before a join relabels the class of fewer tags, the applications that have one of its tags for an argument are taken out and wait; what waits is met again, the
   first of them each time, until none does. */
#include <stdint.h>
#include <stdio.h>
#include <stdlib.h>
#include <string.h>

enum { TAGS = 1000, RECORDS = 4000, BUCKETS = 761, EQUATION = 65535, LEADS = 1000, JOB = 46510, WAITS = 4002 };

static uint16_t left[RECORDS + 1], right[RECORDS + 1], result[RECORDS + 1];
static uint16_t parent[TAGS], /* of a tag that leads its class: the largest tag of it */
    age[TAGS],                /* of a tag that leads its class: LEADS, and one more for each other tag of it */
    first[TAGS], second[TAGS], when[TAGS];
static uint16_t label[TAGS], more[RECORDS], other[RECORDS], chain[RECORDS], buckets[BUCKETS], uses[TAGS], shares[TAGS];
static unsigned char job[JOB + 1];
static long met, longest, idle;

static uint32_t key(int r)
{
    return label[left[r]] * 65536u + label[right[r]];
}

/* Whether place j waits; otherwise chain[j] is one more than what its chain leads on to, and of one that waits it is WAITS more than the next that does. */
static int waits(int j)
{
    return chain[j] == 0 || chain[j] >= WAITS;
}

/* The last link of a bucket's chain to a place above j, or 0; and what stands behind it. */
static int above(int b, int j)
{
    int q = 0, p = buckets[b];
    while (j + 1 < p) {
        q = p;
        p = chain[p - 1] - 1;
    }
    return q;
}

static int behind(int b, int q)
{
    return q == 0 ? buckets[b] : chain[q - 1] - 1;
}

static void lead(int b, int q, int p)
{
    if (q == 0)
        buckets[b] = (uint16_t)p;
    else
        chain[q - 1] = (uint16_t)(p + 1);
}

static int touch(int j, int first)
{
    if (waits(j))
        return first;
    int b = (int)(key(j + 1) % BUCKETS), q = above(b, j), p = chain[j] - 1;
    if (behind(b, q) == j + 1)
        lead(b, q, p);
    chain[j] = (uint16_t)(first + WAITS);
    return j + 1;
}

static int touch_tag(int x, int first)
{
    for (int p = uses[x]; p != 0; p = more[p - 1])
        first = touch(p - 1, first);
    for (int p = shares[x]; p != 0; p = other[p - 1])
        first = touch(p - 1, first);
    return first;
}

/* The leader of the class that is labelled r: r itself where it has no link, and otherwise the first tag with that label. */
static uint16_t leader(uint16_t r)
{
    uint16_t x = 0;
    if (age[r] >= LEADS)
        return r;
    while (x < r && label[x] != r)
        x++;
    return x;
}

static int join(int joins, int waiting, int one, int another, uint16_t a, uint16_t b, int places)
{
    uint16_t x = leader(a), y = leader(b);
    int fewer = age[x] == age[y] ? y < x : age[x] < age[y];
    uint16_t kept = fewer ? b : a, gone = fewer ? a : b, from = fewer ? x : y, last = parent[from];
    uint16_t lo = x < y ? x : y, hi = x < y ? y : x;
    uint16_t top = parent[x] < parent[y] ? parent[y] : parent[x], weight = (uint16_t)(age[x] + age[y] - 999);
    for (int z = from; z <= last; z++)
        if (label[z] == gone)
            waiting = touch_tag(z, waiting);
    for (int z = from; z <= last; z++)
        label[z] = label[z] == gone ? kept : label[z];
    parent[hi] = lo;
    age[hi] = (uint16_t)joins;
    first[joins] = (uint16_t)one;
    second[joins] = (uint16_t)another;
    when[joins] = (uint16_t)places;
    parent[lo] = top;
    age[lo] = weight;
    return waiting;
}

/* What the chains have for the key x: a record, or 0. */
static int look_up(uint32_t x)
{
    int p = buckets[x % BUCKETS];
    long far = 0;
    met++;
    while (p != 0 && key(p) != x) {
        p = chain[p - 1] - 1;
        far++;
    }
    longest = far > longest ? far : longest;
    return p;
}

/* The application at place j, the first that waits, has the key x, for which p was found; *waiting is the first that waits then. The number of joins. */
static int resolve(uint32_t x, int p, int j, int joins, int places, int *waiting)
{
    if (p == 0) {
        int b = (int)(x % BUCKETS), q = above(b, j);
        *waiting = chain[j] - WAITS;
        chain[j] = (uint16_t)(behind(b, q) + 1);
        lead(b, q, j + 1);
        return joins;
    }
    uint16_t c = label[result[p]], d = label[result[j + 1]];
    if (c == d) {
        *waiting = chain[j] - WAITS;
        chain[j] = 1;
        return joins;
    }
    *waiting = join(joins, j + 1, p, j + 1, c, d, places);
    return joins + 1;
}

static int meet(int j, int joins, int places, int *waiting)
{
    uint32_t x = key(j + 1);
    return resolve(x, look_up(x), j, joins, places, waiting);
}

static int settle(int joins, int places, int waiting)
{
    while (waiting != 0)
        joins = meet(waiting - 1, joins, places, &waiting);
    return joins;
}

static int admit(int i, int joins)
{
    int r = i + 1, waiting = r;
    if (result[r] == EQUATION) {
        uint16_t a = label[left[r]], b = label[right[r]];
        chain[i] = 1;
        idle += a == b;
        if (a == b)
            return joins;
        waiting = join(joins, 0, r, 0, a, b, r);
        joins++;
    } else {
        uint32_t x = key(r);
        int p = look_up(x);
        idle += p != 0 && label[result[p]] == label[result[r]];
        more[i] = uses[left[r]];
        uses[left[r]] = (uint16_t)r;
        other[i] = shares[right[r]];
        shares[right[r]] = (uint16_t)r;
        chain[i] = WAITS;
        joins = resolve(x, p, i, joins, r, &waiting);
    }
    return settle(joins, r, waiting);
}

static int close_all(int records)
{
    int joins = 0;
    for (int x = 0; x < TAGS; x++) {
        age[x] = LEADS;
        label[x] = (uint16_t)x;
        parent[x] = (uint16_t)x;
    }
    memset(chain, 0, sizeof chain);
    memset(buckets, 0, sizeof buckets);
    memset(uses, 0, sizeof uses);
    memset(shares, 0, sizeof shares);
    met = longest = idle = 0;
    for (int i = 0; i < records; i++)
        joins = admit(i, joins);
    return joins;
}

static int two(const unsigned char *at)
{
    return at[0] * 256 + at[1];
}

int main(int argc, char **argv)
{
    long times = argc == 3 && strcmp(argv[1], "-r") == 0 ? strtol(argv[2], NULL, 10) : 1;
    size_t length = fread(job, 1, sizeof job, stdin);
    int records = 0, joins = 0;
    for (const unsigned char *at = job; at + 3 <= job + length && at[0] != 0x7F; at += 3 + two(at + 1))
        if (at[0] == 1 || at[0] == 2) {
            records++;
            left[records] = (uint16_t)two(at + 3);
            right[records] = (uint16_t)two(at + 5);
            result[records] = at[0] == 2 ? (uint16_t)two(at + 7) : EQUATION;
        }
    for (long i = 0; i < times; i++)
        joins = close_all(records);
    printf("records %d joins %d met %ld longest %ld idle %ld\n", records, joins, met, longest, idle);
    return fflush(stdout) != 0;
}
