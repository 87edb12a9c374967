/* The streams of frames.h. Rests on frames.h, answers.h and damage.h. */
#include "frames.h"
#include "answers.h"
#include "damage.h"

#include <stdio.h>
#include <stdlib.h>
#include <string.h>

enum { SHOWN = 10, LONGEST_FRAME = 1 << 26 };

static void broken(const char *what)
{
    fprintf(stderr, "second: broken stream: %s\n", what);
    exit(2);
}

static unsigned long get_number(int bytes)
{
    unsigned long value = 0;
    for (int i = 0; i < bytes; i++) {
        int byte = getchar();
        if (byte == EOF)
            broken("it ends inside a frame");
        value = value * 256 + (unsigned long)byte;
    }
    return value;
}

static void get_bytes(struct bytes *out)
{
    unsigned long length = get_number(4);
    if (length > LONGEST_FRAME)
        broken("a frame is longer than any can be");
    out->length = 0;
    for (unsigned long i = 0; i < length; i++)
        byte_add(out, (int)get_number(1));
}

static void put_number(unsigned long value, int bytes)
{
    for (int shift = 8 * (bytes - 1); shift >= 0; shift -= 8)
        putchar((int)(value >> shift & 255));
}

static void put_bytes(const struct bytes *bytes)
{
    put_number(bytes->length, 4);
    if (bytes->length > 0)
        fwrite(bytes->at, 1, bytes->length, stdout);
}

/* The job at hand, what it says, and the report that came last. */
struct stand {
    struct bytes bytes, report;
    struct job job;
    struct history history;
    long room, record_places, work_places;
    long jobs, cases, wrong; /* in play: answers given, and lies among them */
};

static void take_job(struct stand *stand, enum way (*way)(const struct job *job))
{
    get_bytes(&stand->bytes);
    stand->report.length = 0;
    stand->room = LENT_ROOM;
    stand->record_places = RECORD_PLACES;
    stand->work_places = WORK_PLACES;
    stand->jobs++;
    job_read(&stand->job, stand->bytes.at, stand->bytes.length);
    if (stand->job.number == 0)
        history_of(&stand->history, &stand->job, way(&stand->job));
}

static enum way by_use_lists(const struct job *job)
{
    (void)job;
    return BY_USE_LISTS;
}

/* ---- the judge ---- */

static void show_bytes(const char *what, const struct bytes *bytes)
{
    printf("  %s, %lu bytes:", what, (unsigned long)bytes->length);
    for (size_t i = 0; i < bytes->length && i < 400; i++)
        printf(" %02X", bytes->at[i]);
    printf(bytes->length > 400 ? " ..\n" : "\n");
}

static void judged(struct stand *stand, const char *call, int right, long right_place, unsigned long said, unsigned long place)
{
    stand->cases++;
    if ((unsigned long)right == said && (unsigned long)right_place == place)
        return;
    if (stand->wrong++ >= SHOWN)
        return;
    printf("wrong: job %ld, %s: said %lu %lu, right is %d %ld\n", stand->jobs, call, said, place, right, right_place);
    show_bytes("job", &stand->bytes);
    show_bytes("report", &stand->report);
}

static void judge_run(struct stand *stand)
{
    unsigned long said = get_number(2), place = get_number(4);
    get_bytes(&stand->report);
    int right = run_number(&stand->job, stand->record_places, stand->work_places, stand->room);
    long right_place = right != 0 && right == stand->job.number ? stand->job.place : 0;
    judged(stand, "run", right, right_place, said, place);
    if (right != 0) {
        if (stand->report.length > 0)
            judged(stand, "length of a refused run", 0, 0, (unsigned long)stand->report.length, 0);
        return;
    }
    long fault = 0;
    int sound = report_judge(&stand->job, &stand->history, stand->report.at, stand->report.length, &fault);
    if (said == 0)
        judged(stand, "report of the run (0 0 is sound)", 0, 0, (unsigned long)sound, (unsigned long)fault);
}

static void judge_recheck(struct stand *stand)
{
    unsigned long said = get_number(2), place = get_number(4);
    int right = recheck_number(&stand->job, stand->record_places, stand->work_places);
    long right_place = right != 0 && right == stand->job.number ? stand->job.place : 0;
    if (right == 0)
        right = report_judge(&stand->job, &stand->history, stand->report.at, stand->report.length, &right_place);
    judged(stand, "recheck", right, right_place, said, place);
}

int frames_judge(void)
{
    static struct stand stand;
    int letter;
    while ((letter = getchar()) != EOF) {
        if (letter != 'J' && stand.jobs == 0)
            broken("it does not begin with a job");
        switch (letter) {
        case 'J':
            take_job(&stand, way_for);
            break;
        case 'L':
            stand.room = (long)get_number(4);
            stand.record_places = (long)get_number(4);
            stand.work_places = (long)get_number(4);
            break;
        case 'R':
            judge_run(&stand);
            break;
        case 'P':
            get_bytes(&stand.report);
            break;
        case 'C':
            judge_recheck(&stand);
            break;
        case 'X':
            judged(&stand, "what was lent (0 0 is as it must be)", 0, 0, 1, 0);
            break;
        default:
            broken("a frame of no known letter");
        }
    }
    printf("cases %ld wrong %ld\n", stand.cases, stand.wrong);
    return stand.cases == 0 ? 2 : stand.wrong > 0;
}

/* ---- damaged reports for a test program ---- */

static void put_damaged(const struct damaged *damaged, void *with)
{
    (void)with;
    putchar('P');
    put_bytes(&damaged->report);
}

int frames_damage(unsigned long long seed)
{
    static struct stand stand;
    int letter;
    while ((letter = getchar()) != EOF) {
        if (letter != 'J')
            broken("only jobs are expected");
        take_job(&stand, way_for);
        putchar('J');
        put_bytes(&stand.bytes);
        if (stand.job.number == 0) {
            report_write(&stand.job, &stand.history, 0, &stand.report);
            each_damage(&stand.job, &stand.history, &stand.report, seed + (unsigned long long)stand.jobs, put_damaged, NULL);
        }
    }
    return fflush(stdout) != 0 || ferror(stdout);
}

/* ---- the part of a test program ---- */

static int lies_now(struct stand *stand, long lie)
{
    stand->cases++;
    int now = lie > 0 && stand->cases % lie == 0;
    stand->wrong += now;
    return now;
}

static void play_recheck(struct stand *stand, long lie)
{
    long place = 0;
    int number = stand->job.number;
    if (number == 0)
        number = report_judge(&stand->job, &stand->history, stand->report.at, stand->report.length, &place);
    else
        place = stand->job.place;
    if (lies_now(stand, lie))
        place++;
    putchar('C');
    put_number((unsigned long)number, 2);
    put_number((unsigned long)place, 4);
}

static void play_run(struct stand *stand, long lie)
{
    int number = run_number(&stand->job, RECORD_PLACES, WORK_PLACES, LENT_ROOM);
    long place = number == stand->job.number ? stand->job.place : 0;
    if (number == 0)
        report_write(&stand->job, &stand->history, 0, &stand->report);
    if (lies_now(stand, lie)) {
        if (number == 0)
            stand->report.at[stand->report.length - 1]++;
        else
            place++;
    }
    putchar('R');
    put_number((unsigned long)number, 2);
    put_number((unsigned long)place, 4);
    put_bytes(&stand->report);
}

int frames_play(long lie)
{
    static struct stand stand;
    int letter;
    while ((letter = getchar()) != EOF) {
        if (letter == 'J') {
            take_job(&stand, by_use_lists);
            putchar('J');
            put_bytes(&stand.bytes);
            play_run(&stand, lie);
        } else if (letter == 'P' && stand.jobs > 0) {
            get_bytes(&stand.report);
            putchar('P');
            put_bytes(&stand.report);
        } else
            broken("jobs and reports are expected");
        play_recheck(&stand, lie);
    }
    fprintf(stderr, "answers %ld lies %ld\n", stand.cases, stand.wrong);
    return fflush(stdout) != 0 || ferror(stdout);
}
