/* Calls the functions of the static library on the inspector's job and on a small script and on a plain harness sheet, with dirty tables and a dirty room, and checks every answer, every byte and every number. It is
 * C and C++ alike. */
#include <stdio.h>
#include <stdlib.h>
#include <string.h>

#include "../include/haltzurme.h"

static uint8_t job[60000], room[200];
static uint16_t work[HALTZURME_WORK + 5];

static void expect(int holds, const char *what) {
    if (!holds) {
        printf("boundary: wrong: %s\n", what);
        exit(1);
    }
}

static void soil(void) {
    for (size_t i = 0; i < sizeof room; i++) room[i] = (uint8_t)(i * 7 + 1);
    for (size_t i = 0; i < HALTZURME_WORK + 5; i++) work[i] = (uint16_t)(i * 31 + 3);
}

static int soiled_room(size_t from) {
    for (size_t i = from; i < sizeof room; i++)
        if (room[i] != (uint8_t)(i * 7 + 1)) return 0;
    return 1;
}

static int soiled_work(size_t from) {
    for (size_t i = from; i < HALTZURME_WORK + 5; i++)
        if (work[i] != (uint16_t)(i * 31 + 3)) return 0;
    return 1;
}

static int zero_work(void) {
    for (size_t i = 0; i < HALTZURME_WORK; i++)
        if (work[i]) return 0;
    return 1;
}

/* The room of a script's job is longer than the others: it is soiled and looked at by itself. */
static uint8_t long_room[HALTZURME_LONGEST_JOB + 3], script[HALTZURME_LONGEST_SCRIPT + 1];

static int soiled_long(size_t from) {
    for (size_t i = from; i < sizeof long_room; i++)
        if (long_room[i] != (uint8_t)(i * 5 + 2)) return 0;
    return 1;
}

static void soil_long(void) {
    soil();
    for (size_t i = 0; i < sizeof long_room; i++) long_room[i] = (uint8_t)(i * 5 + 2);
}

static void scripts(void) {
    static const char text[] = "(set-logic QF_UF)(declare-sort U 0)(declare-fun a () U)(declare-fun b () U)(assert (= a b))(check-sat)(exit)";
    static const uint8_t wanted[] = {0x10, 0, 2, 0, 2, 1, 0, 4, 0, 0, 0, 1, 6, 0, 0, 0x7F, 0, 0};
    size_t length = sizeof text - 1, place = 77, size = 77;
    memcpy(script, text, length);
    soil_long();
    expect(haltzurme_script(script, length, long_room, sizeof long_room, work, HALTZURME_WORK + 5, &place, &size) == HALTZURME_ACCEPTED && place == 0 && size == sizeof wanted, "a script becomes a job");
    expect(memcmp(long_room, wanted, sizeof wanted) == 0 && soiled_long(sizeof wanted) && zero_work() && soiled_work(HALTZURME_WORK), "the job, the room behind it and the table");
    soil_long();
    expect(haltzurme_script(script, length - 6, long_room, sizeof long_room, work, HALTZURME_WORK, &place, &size) == HALTZURME_SUBSET && place == length - 6 && size == 0, "a script that ends too soon");
    expect(soiled_long(0) && zero_work(), "leaves the room");
    soil_long();
    expect(haltzurme_script(script, length, long_room, HALTZURME_LONGEST_JOB - 1, work, HALTZURME_WORK, &place, &size) == HALTZURME_NARROW && soiled_long(0) && soiled_work(0), "46,509 bytes of room give 2");
    expect(haltzurme_script(script, length, long_room, sizeof long_room, work, HALTZURME_WORK - 1, &place, &size) == HALTZURME_NARROW && soiled_long(0) && soiled_work(0), "32,767 numbers give 2");
    expect(haltzurme_script(script, HALTZURME_LONGEST_SCRIPT + 1, long_room, sizeof long_room, work, HALTZURME_WORK, &place, &size) == HALTZURME_LONG && soiled_long(0) && soiled_work(0), "60,001 bytes give 1");
}

int main(int count, char **words) {
    expect(count == 2, "one argument, the inspector's job");
    FILE *f = fopen(words[1], "rb");
    expect(f != NULL, "the job can be opened");
    size_t length = fread(job, 1, sizeof job, f), place = 77, size = 77;
    fclose(f);
    expect(length == 89, "the inspector's job has 89 bytes");

    soil();
    expect(haltzurme_run(job, length, room, 69, work, HALTZURME_WORK + 5, &place, &size) == HALTZURME_ACCEPTED && place == 0 && size == 49, "69 bytes of room are enough, and the report has 49");
    expect(soiled_room(49) && zero_work() && soiled_work(HALTZURME_WORK), "the room behind the report and the table's rest are as they were");
    uint8_t report[50];
    memcpy(report, room, 49);
    report[49] = 0;

    soil();
    expect(haltzurme_recheck(job, length, report, 49, work, HALTZURME_WORK, &place) == HALTZURME_ACCEPTED && place == 0, "the report passes the recheck");
    expect(zero_work() && soiled_work(HALTZURME_WORK), "the recheck clears the named places");
    soil();
    expect(haltzurme_recheck(job, length, report, 50, work, HALTZURME_WORK, &place) == HALTZURME_UNSOUND && place == 49, "a spare byte is at fault where it stands");
    soil();
    expect(haltzurme_run(job, length, room, 68, work, HALTZURME_WORK, &place, &size) == HALTZURME_ROOM && place == 0 && size == 0, "68 bytes of room give 9");
    expect(soiled_room(0) && zero_work(), "and leave the room");
    soil();
    expect(haltzurme_run(job, length, room, 69, work, HALTZURME_WORK - 1, &place, &size) == HALTZURME_NARROW && soiled_room(0) && soiled_work(0), "32,767 numbers give 2, and nothing changes");
    expect(haltzurme_run(job, HALTZURME_LONGEST_JOB + 1, room, 69, work, HALTZURME_WORK, &place, &size) == HALTZURME_LONG && soiled_room(0) && soiled_work(0), "46,511 bytes give 1, and nothing changes");
    job[0] = HALTZURME_SHEETED;
    expect(haltzurme_run(job, HALTZURME_LONGEST_SHEETED + 1, room, 69, work, HALTZURME_WORK, &place, &size) == HALTZURME_LONG && soiled_room(0) && soiled_work(0), "54,511 bytes give 1 in edition 2, and nothing changes");
    expect(haltzurme_run(job, HALTZURME_LONGEST_SHEETED, room, 69, work, HALTZURME_WORK, &place, &size) == HALTZURME_LENGTH && place == 0 && soiled_room(0) && zero_work(), "54,510 bytes do not, and a header of length 2 is refused by 5 there");
    job[0] = HALTZURME_TAGS;
    soil();
    expect(haltzurme_run(job, 0, room, 69, work, HALTZURME_WORK, &place, &size) == HALTZURME_SHORT && place == 0 && soiled_room(0) && zero_work(), "an empty job is refused by 3 at 0");
    size_t passes = 77;
    soil();
    expect(haltzurme_passes(job, length, room, 16, work, HALTZURME_WORK, 2, &place, &passes) == HALTZURME_ACCEPTED && place == 0 && passes == 2, "two passes change something, and 16 bytes of room are enough");
    static const uint8_t leaders[16] = {0, 0, 0, 0, 0, 0, 0, 0, 0, 4, 0, 5, 0, 6, 0, 6};
    expect(memcmp(room, leaders, 16) == 0 && soiled_room(16) && zero_work(), "the leaders of all tags, and the room behind them as it was");
    soil();
    expect(haltzurme_passes(job, length, room, 16, work, HALTZURME_WORK, 1, &place, &passes) == HALTZURME_SPENT && place == 0 && passes == 0 && soiled_room(0) && zero_work(), "a limit of one gives 19 and leaves the room");
    soil();
    expect(haltzurme_passes(job, length, room, 15, work, HALTZURME_WORK, 1, &place, &passes) == HALTZURME_ROOM && place == 0 && passes == 0 && soiled_room(0), "15 bytes of room give 9, before 19");
    soil();
    expect(haltzurme_watch(job, length, room, 16, work, HALTZURME_WORK, 1, &place, &passes) == HALTZURME_ACCEPTED && place == 0 && passes == 1, "one pass can be watched");
    static const uint8_t first[16] = {0, 0, 0, 1, 0, 0, 0, 1, 0, 4, 0, 5, 0, 6, 0, 6};
    expect(memcmp(room, first, 16) == 0 && soiled_room(16) && zero_work(), "the leaders after it");
    scripts();

    soil();
    expect(haltzurme_harness_run(job, length, room, sizeof room, work, HALTZURME_WORK, &place, &size) == HALTZURME_KIND && place == 5 && size == 0 && soiled_room(0) && zero_work(), "the harness profile refuses the inspector's first record");
    static const uint8_t sheet[] = {0x10, 0, 2, 0, 3, 1, 0, 4, 0, 0, 0, 1, 1, 0, 4, 0, 1, 0, 2, 1, 0, 4, 0, 0, 0, 2, 4, 0, 4, 0, 0, 0, 2, 0x7F, 0, 0};
    static const uint8_t wanted[] = {0x84, 0, 2, 0, 3, 0x8F, 0, 4, 0, 1, 0, 1};
    soil();
    expect(haltzurme_harness_run(sheet, sizeof sheet, room, sizeof room, work, HALTZURME_WORK + 5, &place, &size) == HALTZURME_ACCEPTED && place == 0 && size == sizeof wanted && memcmp(room, wanted, size) == 0, "0=1, 1=2, 0=2 gives 3 for 0 and 2");
    expect(soiled_room(size) && zero_work() && soiled_work(HALTZURME_WORK), "the room behind the report and the table's rest are as they were");
    expect(haltzurme_harness_recheck(sheet, sizeof sheet, wanted, sizeof wanted, work, HALTZURME_WORK, &place) == HALTZURME_ACCEPTED && place == 0, "the report passes the harness recheck");
    expect(haltzurme_recheck(sheet, sizeof sheet, wanted, sizeof wanted, work, HALTZURME_WORK, &place) == HALTZURME_UNSOUND && place == 0, "and is at fault for the other");
    puts("boundary: ok");
    return 0;
}
