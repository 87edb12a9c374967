/* Looks for bad jobs by hill climbing: a job is changed a little, and the change is kept where its explains take more steps, counted by bench/engine.h.

     worst SECONDS SEED PHASE JOB    PHASE: following, trimming or all; the worst job found is written to the file JOB, and one line to standard output
     worst count < JOB               the steps of the explains of a job, by phase, over all records of it

   It begins with a chain, a tower, random records or a list at the bound, and changes tags of records, exchanges records, copies runs of them with other tags, takes some out and puts some in. */
#include "engine.h"
#include <stdio.h>
#include <stdlib.h>
#include <time.h>

enum { EXPLAINS = 3 };
struct job {
    int tags, records, left[4000], right[4000], result[4000], s[EXPLAINS], t[EXPLAINS];
};
static uint64_t seed;
static int below(int n)
{
    seed ^= seed << 13;
    seed ^= seed >> 7;
    seed ^= seed << 17;
    return (int)(seed % (uint64_t)n);
}

static void load(const struct job *j)
{
    tags = j->tags;
    records = j->records;
    for (int i = 0; i < records; i++) {
        W(LEFT, i + 1) = j->left[i];
        W(RIGHT, i + 1) = j->right[i];
        W(RESULT, i + 1) = j->result[i];
    }
    memset(&steps, 0, sizeof steps);
}

static char phase = 'a';
static long cost(const struct job *j)
{
    int all;
    load(j);
    all = close_all();
    for (int i = 0; i < EXPLAINS; i++)
        explain(all, j->s[i], j->t[i]);
    return phase == 'f' ? steps.following : phase == 't' ? steps.trimming : steps.following + steps.trimming;
}

static void record(struct job *j, int a, int b, int c)
{
    if (j->records < 4000) {
        int i = j->records++;
        j->left[i] = a;
        j->right[i] = b;
        j->result[i] = c;
    }
}

static void begin(struct job *j)
{
    int kind = below(5), n = 1000;
    j->tags = n;
    j->records = 0;
    if (kind == 0)
        for (int i = 0; i + 1 < n; i++)
            record(j, i, i + 1, EQUATION);
    if (kind == 1) {
        for (int i = 0; i + 1 < n; i++)
            record(j, i, below(2) ? i : below(n), i + 1);
        record(j, 0, 1, EQUATION);
    }
    if (kind == 2)
        for (int i = 0; i < 3000; i++)
            record(j, below(n), below(n), below(3) ? below(n) : EQUATION);
    if (kind == 3)
        for (int i = 0; i + 1 < n; i++) {
            record(j, 0, i + 1, i);
            record(j, i, i + 1, i + 1);
        }
    if (kind == 4)
        for (int i = 0; i + 2 < n; i += 2) {
            record(j, i, below(n), i + 1);
            record(j, i + 2, below(n), i + 3 < n ? i + 3 : 0);
            record(j, i, i + 2, EQUATION);
        }
    for (int i = 0; i < EXPLAINS; i++) {
        j->s[i] = below(n);
        j->t[i] = below(n);
    }
}

static void change(struct job *j)
{
    for (int k = 1 + below(4); k > 0; k--) {
        int i = j->records ? below(j->records) : 0, m = j->records ? below(j->records) : 0, run = 1 + below(40), by = below(j->tags);
        if (j->records == 0)
            begin(j);
        switch (below(9)) {
        case 0:
            j->left[i] = below(j->tags);
            break;
        case 1:
            j->right[i] = below(j->tags);
            break;
        case 2:
            if (j->result[i] != EQUATION)
                j->result[i] = below(j->tags);
            break;
        case 3:
            j->result[i] = below(3) ? below(j->tags) : EQUATION;
            break;
        case 4: {
            int a = j->left[i], b = j->right[i], c = j->result[i];
            j->left[i] = j->left[m];
            j->right[i] = j->right[m];
            j->result[i] = j->result[m];
            j->left[m] = a;
            j->right[m] = b;
            j->result[m] = c;
            break;
        }
        case 5: /* a run again, with all tags moved on */
            for (int r = 0; r < run && i + r < j->records; r++)
                record(j, (j->left[i + r] + by) % j->tags, (j->right[i + r] + by) % j->tags, j->result[i + r] == EQUATION ? EQUATION : (j->result[i + r] + by) % j->tags);
            break;
        case 6: /* a run goes */
            if (run > j->records - i)
                run = j->records - i;
            for (int r = i; r + run < j->records; r++) {
                j->left[r] = j->left[r + run];
                j->right[r] = j->right[r + run];
                j->result[r] = j->result[r + run];
            }
            j->records -= run;
            break;
        case 7:
            record(j, below(j->tags), below(j->tags), below(3) ? below(j->tags) : EQUATION);
            break;
        default:
            j->s[below(EXPLAINS)] = below(j->tags);
            j->t[below(EXPLAINS)] = below(j->tags);
        }
    }
}

static void two(FILE *f, int v)
{
    fputc(v / 256, f);
    fputc(v % 256, f);
}

static void write_job(const struct job *j, const char *path)
{
    FILE *f = fopen(path, "wb");
    if (!f) {
        perror(path);
        exit(2);
    }
    fputc(16, f);
    two(f, 2);
    two(f, j->tags);
    for (int i = 0; i < j->records; i++) {
        int app = j->result[i] != EQUATION;
        fputc(app ? 2 : 1, f);
        two(f, app ? 6 : 4);
        two(f, j->left[i]);
        two(f, j->right[i]);
        if (app)
            two(f, j->result[i]);
    }
    for (int i = 0; i < 15; i++) {
        fputc(4, f);
        two(f, 4);
        two(f, j->s[i % EXPLAINS]);
        two(f, j->t[i % EXPLAINS]);
    }
    fputc(127, f);
    two(f, 0);
    fclose(f);
}

static int count(void)
{
    static unsigned char job[43100];
    static struct job j;
    int len = (int)fread(job, 1, sizeof job, stdin), all, explains = 0, numbers = 0, before = 0;
    j.tags = job[3] * 256 + job[4];
    for (int at = 5; at < len && job[at] != 127; at += 3 + job[at + 1] * 256 + job[at + 2])
        if (job[at] < 3)
            record(&j, job[at + 3] * 256 + job[at + 4], job[at + 5] * 256 + job[at + 6], job[at] == 2 ? job[at + 7] * 256 + job[at + 8] : EQUATION);
    load(&j);
    all = close_all();
    for (int at = 5; at < len && job[at] != 127; at += 3 + job[at + 1] * 256 + job[at + 2]) {
        int s = job[at + 3] * 256 + job[at + 4], t = job[at + 5] * 256 + job[at + 6], b;
        before += job[at] < 3;
        if (job[at] != 4)
            continue;
        b = s == t ? 0 : met(s, t);
        if (s == t || b >= all || W(WHEN, b) > before)
            continue;
        explains++;
        numbers += explain(all, s, t);
    }
    printf("explains %d numbers %d closing %ld following %ld trimming %ld\n", explains, numbers, steps.closing, steps.following, steps.trimming);
    return 0;
}

int main(int c, char **v)
{
    static struct job now, next, best;
    long most = -1, at = -1, tried = 0, since = 0;
    time_t end;
    if (c == 2 && !strcmp(v[1], "count"))
        return count();
    if (c != 5)
        return 2;
    end = time(0) + atoi(v[1]);
    seed = strtoull(v[2], 0, 10) * 2654435761u + 1;
    phase = v[3][0];
    while (time(0) < end) {
        long k;
        if (at < 0 || since > 3000) { /* from somewhere else */
            begin(&now);
            at = cost(&now);
            since = 0;
        }
        next = now;
        change(&next);
        k = cost(&next);
        tried++;
        since++;
        if (k >= at) {
            if (k > at)
                since = 0;
            now = next;
            at = k;
        }
        if (at > most) {
            most = at;
            best = now;
        }
    }
    cost(&best);
    printf("%s seed %s: %ld jobs tried; worst of %d explains: closing %ld following %ld trimming %ld steps\n", v[3], v[2], tried, EXPLAINS, steps.closing, steps.following, steps.trimming);
    write_job(&best, v[4]);
    return 0;
}
