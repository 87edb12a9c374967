/* The closure by passes (document 02, No. 12) of the library beside the same loops in C, in one process: crates/slow_chain and slow_close, over the same work table. It reads a job that is
   accepted from standard input and writes one line: records, passes, and nanoseconds of processor time of one closure: of the call haltzurme_passes less the same call on the job with no pass
   made (haltzurme_watch with 0), and of the loops in C; then their ratio. The least of several rounds, in each of which both take their turn.

     passes [-r ROUNDS] < JOB */
#include "../include/haltzurme.h"

#include <stdio.h>
#include <stdlib.h>
#include <string.h>
#include <time.h>

enum { LEFT = 0, RIGHT = 4001, RESULT = 8002, LABEL = 21003, NEXT = 22003, HEADS = 26003, MARKS = 30096, SAVED = 31096, HEAD_COUNT = MARKS - HEADS, TAGS = 1000, EQUATION = 65535 };

static uint8_t job[50000], room[2000];
static uint16_t work[HALTZURME_WORK], w[HALTZURME_WORK];
static size_t length;
static int tags, records;

static int two(const uint8_t *at) { return at[0] * 256 + at[1]; }

static void load(void)
{
    tags = two(job + 3);
    for (size_t at = 3 + (size_t)two(job + 1); job[at] != HALTZURME_END; at += 3 + (size_t)two(job + at + 1)) {
        if (job[at] > HALTZURME_APPLICATION)
            continue;
        records++;
        w[LEFT + records] = (uint16_t)two(job + at + 3);
        w[RIGHT + records] = (uint16_t)two(job + at + 5);
        w[RESULT + records] = (uint16_t)(job[at] == HALTZURME_APPLICATION ? two(job + at + 7) : EQUATION);
    }
}

static size_t key(int r) { return (size_t)w[LABEL + w[LEFT + r]] * 65536 + w[LABEL + w[RIGHT + r]]; }

static int meet(uint16_t s, uint16_t t)
{
    uint16_t a = w[SAVED + s], b = w[SAVED + t], lo = a < b ? a : b, hi = a < b ? b : a;
    if (a == b)
        return 0;
    for (int x = 0; x < tags; x++)
        w[SAVED + x] = w[SAVED + x] == hi ? lo : w[SAVED + x];
    return 1;
}

static int step(int i)
{
    if (w[RESULT + i + 1] == EQUATION)
        return meet(w[LEFT + i + 1], w[RIGHT + i + 1]);
    size_t x = key(i + 1), b = x % HEAD_COUNT;
    int p = w[HEADS + b];
    while (p != 0 && key(p) != x)
        p = w[NEXT + p - 1];
    if (p != 0)
        return meet(w[RESULT + p], w[RESULT + i + 1]);
    w[NEXT + i] = w[HEADS + b];
    w[HEADS + b] = (uint16_t)(i + 1);
    return 0;
}

static int turn(void)
{
    int joined = 0;
    memcpy(w + SAVED, w + LABEL, TAGS * sizeof *w);
    memset(w + NEXT, 0, (MARKS - NEXT) * sizeof *w);
    for (int i = 0; i < records; i++)
        joined |= step(i);
    memcpy(w + LABEL, w + SAVED, TAGS * sizeof *w);
    return joined;
}

static int close_all(void)
{
    int count = 0;
    for (int x = 0; x < TAGS; x++)
        w[LABEL + x] = (uint16_t)x;
    while (turn())
        count++;
    return count;
}

static double now(void)
{
    struct timespec t;
    clock_gettime(CLOCK_PROCESS_CPUTIME_ID, &t);
    return (double)t.tv_sec * 1e9 + (double)t.tv_nsec;
}

static size_t call(int watch)
{
    size_t place, passes;
    uint8_t number = watch ? haltzurme_watch(job, length, room, sizeof room, work, HALTZURME_WORK, 0, &place, &passes)
                           : haltzurme_passes(job, length, room, sizeof room, work, HALTZURME_WORK, TAGS, &place, &passes);
    if (number != 0) {
        printf("the job is refused by %d at %zu\n", number, place);
        exit(1);
    }
    return passes;
}

/* Nanoseconds of one of three, the mean of so many: the call, the call with no pass, the loops in C. */
static double spent(int which, int times)
{
    double from = now();
    for (int i = 0; i < times; i++) {
        if (which < 2)
            call(which);
        else
            close_all();
    }
    return (now() - from) / times;
}

int main(int count, char **words)
{
    int rounds = count == 3 && strcmp(words[1], "-r") == 0 ? atoi(words[2]) : 9;
    length = fread(job, 1, sizeof job, stdin);
    size_t passes = call(0);
    load();
    if (close_all() != (int)passes) {
        printf("the loops in C make another count\n");
        return 1;
    }
    double least[3] = {1e18, 1e18, 1e18};
    int times = 1 + (int)(2e7 / (spent(2, 1) + 1)); /* some 20 ms a round */
    if (times > 2000)
        times = 2000;
    for (int r = 0; r < rounds; r++)
        for (int k = 0; k < 3; k++) {
            double t = spent(k, times);
            least[k] = t < least[k] ? t : least[k];
        }
    printf("%8d %6zu %11.0f %11.0f %11.0f %6.2f\n", records, passes, least[0], least[0] - least[1], least[2], (least[0] - least[1]) / least[2]);
    return 0;
}
