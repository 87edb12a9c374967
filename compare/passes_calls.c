/* The simulator's two calls for C, haltzurme_passes and haltzurme_watch (document 02, No. 12), on a stream of jobs, against the second program: the answer, every byte of the room and every
   number of the work table. Room and table are full of rubbish before each call, which differs from call to call. Each job is asked with limits on both sides of its count, with exactly 2N
   bytes of room, more, and one less, with a table longer than named and one too short; and watched after each of its first passes. It reads frames as make_jobs writes them, and writes
   `cases N wrong M`. Rests on passes.h and on the library.

     passes_calls [EVERY]    one of so many jobs only, the first of them first */
#include "../include/haltzurme.h"
#include "passes.h"

#include <stdio.h>
#include <stdlib.h>
#include <string.h>

enum { ROOM = 2100, SPARE = 7 };

static unsigned char bytes[100000];
static struct job job;
static uint8_t room[ROOM];
static uint16_t work[HALTZURME_WORK + SPARE];
static unsigned salt;
static long cases, wrong;

static uint8_t soil(size_t i) { return (uint8_t)((i + salt) * 31 >> (salt % 5)); }

static uint16_t dirt(size_t i) { return salt % 4 == 0 ? 65535 : salt % 4 == 1 ? (uint16_t)salt : (uint16_t)((i + salt) * 40503u >> 3); }

static int as_lent(size_t from)
{
    for (size_t i = from; i < ROOM; i++)
        if (room[i] != soil(i))
            return 0;
    return 1;
}

static int dirty(size_t from)
{
    for (size_t i = from; i < HALTZURME_WORK + SPARE; i++)
        if (work[i] != dirt(i))
            return 0;
    return 1;
}

static int zero(void)
{
    for (size_t i = 0; i < HALTZURME_WORK; i++)
        if (work[i] != 0)
            return 0;
    return 1;
}

static int leaders_stand(const struct passes *right)
{
    for (int x = 0; x < job.tags; x++)
        if (room[2 * x] * 256 + room[2 * x + 1] != right->leader[x])
            return 0;
    return 1;
}

/* One call with these loans, judged. */
static void one(size_t length, long space, size_t table, int watch, size_t limit)
{
    static struct passes right;
    size_t place = 77, passes = 77;
    int number;
    salt++;
    for (size_t i = 0; i < ROOM; i++)
        room[i] = soil(i);
    for (size_t i = 0; i < HALTZURME_WORK + SPARE; i++)
        work[i] = dirt(i);
    long most = limit > MOST_TAGS ? MOST_TAGS : (long)limit; /* as good as any that is higher */
    memset(&right, 0, sizeof right);
    if (job.number == 1 || table < HALTZURME_WORK)
        right.number = job.number == 1 ? 1 : 2;
    else if (job.number != 0)
        right.number = job.number;
    else if (watch)
        passes_after(&right, &job, space, most);
    else
        passes_of(&right, &job, space, most);
    number = (watch ? haltzurme_watch : haltzurme_passes)(bytes, length, room, (size_t)space, work, table, limit, &place, &passes);
    int good = number == right.number && passes == (size_t)right.count && place == (size_t)(right.number == job.number ? job.place : 0);
    good = good && (number == 0 ? leaders_stand(&right) && as_lent(2 * (size_t)job.tags) : as_lent(0));
    good = good && (number == 1 || number == 2 ? dirty(0) : zero() && dirty(HALTZURME_WORK));
    cases++;
    if (!good && ++wrong <= 5)
        printf("wrong: job of %zu bytes, room %ld, table %zu, %s %zu: number %d place %zu passes %zu, right is number %d passes %ld\n", length, space, table, watch ? "watched after" : "limit", limit,
               number, place, passes, right.number, right.count);
}

static void judge(size_t length)
{
    static struct passes all;
    job_read(&job, bytes, length);
    one(length, ROOM, HALTZURME_WORK - 1, 0, MOST_TAGS);
    if (job.number != 0) {
        one(length, 0, HALTZURME_WORK + SPARE, 0, 0);
        one(length, ROOM, HALTZURME_WORK, 1, 3);
        return;
    }
    passes_of(&all, &job, ROOM, MOST_TAGS);
    size_t count = (size_t)all.count;
    long need = 2L * job.tags;
    one(length, need, HALTZURME_WORK, 0, count);
    one(length, need - 1, HALTZURME_WORK, 0, count);
    one(length, need - 1, HALTZURME_WORK, 0, 0); /* 9 before 19 */
    one(length, need + 1, HALTZURME_WORK + SPARE, 0, count + 1);
    one(length, ROOM, HALTZURME_WORK + SPARE, 0, (size_t)job.tags - 1);
    one(length, ROOM, HALTZURME_WORK, 0, SIZE_MAX);
    if (count > 0) {
        one(length, ROOM, HALTZURME_WORK, 0, count - 1);
        one(length, need, HALTZURME_WORK, 0, 0);
    }
    for (size_t n = 0; n <= count + 1 && n < 12; n++)
        one(length, n % 2 == 0 ? need : ROOM, HALTZURME_WORK, 1, n);
    one(length, need - 1, HALTZURME_WORK, 1, count);
    one(length, need, HALTZURME_WORK, 1, SIZE_MAX);
}

int main(int count, char **words)
{
    int c;
    long every = count == 2 ? atol(words[1]) : 1, n = 0;
    while ((c = getchar()) == 'J') {
        size_t length = 0;
        for (int i = 0; i < 4; i++)
            length = length * 256 + (size_t)getchar();
        if (length > sizeof bytes || fread(bytes, 1, length, stdin) != length) {
            printf("wrong: no right frame\n");
            return 1;
        }
        if (n++ % every == 0)
            judge(length);
    }
    printf("cases %ld wrong %ld\n", cases, wrong);
    return cases == 0 || wrong != 0;
}
