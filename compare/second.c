/* The second program: judges what tagcheck and its calls answer, from document 01 alone. It shares nothing with them.

     second judge JOB TEXT      judges the lines that tagcheck wrote for a job
     second report JOB REPORT   judges a report; prints `number place` as the recheck must
     second refuse JOB          prints `number place needed`: the refusal 1, 3 to 8, 11 to 13 or 0 0, and the needed room (0 if refused)
     second lines JOB           lines of its own, as tagcheck may write them
     second answer JOB          a report of its own, as bytes
     second passes JOB LIMIT ROOM   the line of tagpasses for a limit and a room of so many bytes: `P count` and the leaders, or `R number place`
     second frames              judges a test program's stream on standard input (frames.h)
     second damage SEED         puts damaged reports behind each job of a stream of jobs
     second play [LIE]          answers a stream as a test program does; every LIE-th answer wrongly
     second selftest            the self-tests

   JOB, TEXT and REPORT are files; `-` is standard input. Status 0: right; 1: wrong; 2: it cannot be done. */
#include "answers.h"
#include "frames.h"
#include "passes.h"
#include "selfcheck.h"

#include <stdio.h>
#include <stdlib.h>
#include <string.h>

static void read_file(const char *name, struct bytes *out)
{
    int standard = strcmp(name, "-") == 0, byte;
    FILE *file = standard ? stdin : fopen(name, "rb");
    if (file == NULL) {
        fprintf(stderr, "second: cannot read %s\n", name);
        exit(2);
    }
    while ((byte = getc(file)) != EOF)
        byte_add(out, byte);
    if (!standard)
        fclose(file);
}

static struct job job;
static struct history history;

static void read_job(const char *name)
{
    struct bytes bytes = {0};
    read_file(name, &bytes);
    job_read(&job, bytes.at, bytes.length);
    if (job.number == 0)
        history_of(&history, &job, way_for(&job));
    free(bytes.at);
}

static int judge(const char *text_name)
{
    struct bytes text = {0};
    const char *what = NULL;
    read_file(text_name, &text);
    byte_add(&text, 0);
    long line = text_judge(&job, &history, (const char *)text.at, text.length - 1, &what);
    if (line == 0)
        printf("right\n");
    else
        printf("line %ld: %s\n", line, what);
    free(text.at);
    return line != 0;
}

static int report(const char *report_name)
{
    struct bytes bytes = {0};
    int number = job.number;
    long place = job.place;
    read_file(report_name, &bytes);
    if (number == 0)
        number = report_judge(&job, &history, bytes.at, bytes.length, &place);
    printf("%d %ld\n", number, place);
    free(bytes.at);
    return 0;
}

static int own(int lines)
{
    struct bytes out = {0};
    if (lines)
        lines_write(&job, &history, &out);
    else if (job.number != 0)
        return 1;
    else
        report_write(&job, &history, 0, &out);
    fwrite(out.at, 1, out.length, stdout);
    free(out.at);
    return 0;
}

static void leaders(const char *front, long count, const struct passes *said)
{
    printf("%s %ld", front, count);
    for (int x = 0; x < job.tags; x++)
        printf(" %d", said->leader[x]);
    printf("\n");
}

/* A line for each pass, with the classes that it changed: those that were not classes before. The leader first, then the other tags. */
static void watched(void)
{
    static struct passes before, now;
    passes_after(&before, &job, LENT_ROOM, 0);
    for (long n = 1;; n++) {
        passes_after(&now, &job, LENT_ROOM, n);
        if (now.count < n)
            break;
        printf("%ld:", n);
        for (int l = 0; l < job.tags; l++) {
            int changed = 0;
            for (int x = 0; x < job.tags; x++)
                changed |= now.leader[x] == l && before.leader[x] != before.leader[l];
            if (!changed)
                continue;
            printf(" %d", l);
            for (int x = 0; x < job.tags; x++)
                if (now.leader[x] == l && x != l)
                    printf("=%d", x);
        }
        printf("\n");
        before = now;
    }
}

static int passes(int watch, long limit, long room)
{
    static struct passes said;
    if (job.number == 0)
        passes_of(&said, &job, room, limit);
    if (job.number != 0 || said.number != 0) {
        printf("R %d %ld\n", job.number != 0 ? job.number : said.number, job.number != 0 ? job.place : 0L);
        return 0;
    }
    if (watch)
        watched();
    leaders("P", said.count, &said);
    return 0;
}

int main(int argc, char **argv)
{
    const char *mode = argc > 1 ? argv[1] : "";
    if (argc == 4 && strcmp(mode, "judge") == 0) {
        read_job(argv[2]);
        return judge(argv[3]);
    }
    if (argc == 4 && strcmp(mode, "report") == 0) {
        read_job(argv[2]);
        return report(argv[3]);
    }
    if (argc == 3 && strcmp(mode, "refuse") == 0) {
        read_job(argv[2]);
        printf("%d %ld %ld\n", job.number, job.place, job.number == 0 ? job.needed : 0L);
        return 0;
    }
    if (argc == 3 && (strcmp(mode, "lines") == 0 || strcmp(mode, "answer") == 0)) {
        read_job(argv[2]);
        return own(strcmp(mode, "lines") == 0);
    }
    if (argc == 5 && strcmp(mode, "passes") == 0) {
        read_job(argv[2]);
        int watch = strcmp(argv[3], "watch") == 0;
        return passes(watch, watch ? MOST_TAGS : strtol(argv[3], NULL, 10), strtol(argv[4], NULL, 10));
    }
    if (argc == 2 && strcmp(mode, "frames") == 0)
        return frames_judge();
    if (argc == 3 && strcmp(mode, "damage") == 0)
        return frames_damage(strtoull(argv[2], NULL, 10));
    if ((argc == 2 || argc == 3) && strcmp(mode, "play") == 0)
        return frames_play(argc == 3 ? strtol(argv[2], NULL, 10) : 0);
    if (argc == 2 && strcmp(mode, "selftest") == 0)
        return selfcheck();
    fprintf(stderr, "second: judge JOB TEXT | report JOB REPORT | refuse JOB | lines JOB | answer JOB | passes JOB LIMIT ROOM | frames | damage SEED | "
                    "play [LIE] | selftest\n");
    return 2;
}
