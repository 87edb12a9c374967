/* How much stack a run, a recheck and the passes need at most, through C: each call is made on a stack of its own that is painted before, so that the paint tells how deep it went;
 * and the deepest is made again with less and less of it, above pages that may not be touched, until it faults. The jobs are the deepest that there are, for following a
 * reason goes as deep as joins rest on joins: chains of equations, towers of applications, towers that collapse into one class, and lists at the bound of a reason; each
 * with its records forwards, backwards and shuffled. */
#define _GNU_SOURCE
#include <signal.h>
#include <stdio.h>
#include <stdlib.h>
#include <string.h>
#include <sys/mman.h>
#include <sys/wait.h>
#include <ucontext.h>
#include <unistd.h>

#include "../include/haltzurme.h"

enum { PAGE = 4096, MOST = 1 << 20, ROOM = 1 << 20, PAINT = 0xA5 };

static uint8_t job[HALTZURME_LONGEST_JOB], room[ROOM];
static uint16_t work[HALTZURME_WORK];
static size_t length, size, place, passes;
static uint8_t number;

/* ---- the jobs ---- */

typedef struct {
    int kind, a, b, c;
} entry;
static entry records[HALTZURME_MOST_RECORDS];
static int count, tags;

static void put(int byte) { job[length++] = (uint8_t)byte; }
static void two(int n) { put(n / 256), put(n % 256); }
static void field(int kind, int numbers, int a, int b, int c) {
    put(kind), two(2 * numbers);
    if (numbers > 0) two(a);
    if (numbers > 1) two(b);
    if (numbers > 2) two(c);
}
static void equal(int a, int b) { records[count++] = (entry){HALTZURME_EQUATION, a, b, 0}; }
static void apply(int a, int b, int c) { records[count++] = (entry){HALTZURME_APPLICATION, a, b, c}; }

static void chain(void) { /* each tag is the next */
    for (int i = 0; i + 1 < tags; i++) equal(i, i + 1);
}
static void tower(void) { /* two towers on 1 and 2, which are equal: each storey rests on the one below */
    int i;
    for (i = 1; i + 3 < tags; i++) apply(0, i, i + 2);
    equal(1, 2);
}
static void collapse(void) { /* f(i, last) is i + 1: once 0 is 1, each tag is the next because the two below are */
    for (int i = 0; i + 2 < tags; i++) apply(i, tags - 1, i + 1);
    equal(0, 1);
}
static void bound(void) { /* pairs of applications, each pair's arguments equal by the pair before: two records a join */
    apply(0, 0, 1), apply(0, 0, 2);
    for (int i = 1; i + 3 < tags; i += 2) apply(i, 0, i + 2), apply(i + 1, 0, i + 3);
}
static unsigned long seed;
static int below(int n) {
    seed = seed * 6364136223846793005ul + 1442695040888963407ul;
    return (int)((seed >> 33) % (unsigned long)n);
}
static void turn(int order) { /* 0 forwards, 1 backwards, others shuffled */
    if (order == 1)
        for (int i = 0, j = count - 1; i < j; i++, j--) {
            entry e = records[i];
            records[i] = records[j], records[j] = e;
        }
    seed = (unsigned long)order;
    if (order > 1)
        for (int i = count - 1; i > 0; i--) {
            int j = below(i + 1);
            entry e = records[i];
            records[i] = records[j], records[j] = e;
        }
}

static void make(void (*shape)(void), int order) {
    count = 0, length = 0, tags = HALTZURME_MOST_TAGS;
    shape();
    turn(order);
    field(HALTZURME_TAGS, 1, tags, 0, 0);
    for (int i = 0; i < count; i++) field(records[i].kind, records[i].kind == HALTZURME_EQUATION ? 2 : 3, records[i].a, records[i].b, records[i].c);
    field(HALTZURME_EXPLAIN, 2, 0, tags - 1, 0);
    field(HALTZURME_EXPLAIN, 2, tags - 2, tags - 1, 0);
    field(HALTZURME_EXPLAIN, 2, tags - 3, tags - 2, 0);
    field(HALTZURME_END, 0, 0, 0, 0);
}

/* ---- a call on a stack of its own, whose top is the end of the pages ---- */

static uint8_t *pages;
static ucontext_t here, there;
static int which; /* 0 a run, 1 a recheck, 2 the passes */

static void call(void) {
    if (which == 2)
        number = haltzurme_passes(job, length, room, ROOM, work, HALTZURME_WORK, HALTZURME_MOST_TAGS, &place, &passes);
    else if (which == 1)
        number = haltzurme_recheck(job, length, room, size, work, HALTZURME_WORK, &place);
    else
        number = haltzurme_run(job, length, room, ROOM, work, HALTZURME_WORK, &place, &size);
}
static void on_a_stack(size_t bytes) {
    getcontext(&there);
    there.uc_stack.ss_sp = pages + MOST - bytes;
    there.uc_stack.ss_size = bytes;
    there.uc_link = &here;
    makecontext(&there, call, 0);
    swapcontext(&here, &there);
    if (number != HALTZURME_ACCEPTED) {
        printf("stack: a call answered %d at %zu\n", number, place);
        exit(1);
    }
}

static size_t depth(void) { /* how deep a call goes: behind the lowest byte that is not the paint */
    size_t low = 0;
    memset(pages, PAINT, MOST);
    on_a_stack(MOST);
    while (low < MOST && pages[low] == PAINT) low++;
    return MOST - low;
}

static void fault(int signal_number) {
    (void)signal_number;
    _exit(9);
}
static int faults(size_t bytes) { /* with so many bytes, and no page below them; in a process of its own */
    static uint8_t spare[1 << 16];
    int status;
    fflush(stdout);
    pid_t child = fork();
    if (child == 0) {
        stack_t other = {.ss_sp = spare, .ss_size = sizeof spare};
        struct sigaction told = {.sa_handler = fault, .sa_flags = SA_ONSTACK};
        sigaltstack(&other, NULL);
        sigaction(SIGSEGV, &told, NULL);
        mprotect(pages, MOST - bytes, PROT_NONE);
        on_a_stack(bytes);
        _exit(0);
    }
    waitpid(child, &status, 0);
    return !(WIFEXITED(status) && WEXITSTATUS(status) == 0);
}

int main(void) {
    static const struct {
        const char *name;
        void (*shape)(void);
    } shapes[] = {{"chain", chain}, {"tower", tower}, {"collapsing tower", collapse}, {"list at the bound", bound}};
    static const char *orders[] = {"forwards", "backwards", "shuffled"};
    size_t worst = 0, enough;
    int worst_shape = 0, worst_order = 0, worst_call = 0;
    pages = mmap(NULL, MOST, PROT_READ | PROT_WRITE, MAP_PRIVATE | MAP_ANONYMOUS, -1, 0);
    if (pages == MAP_FAILED) return 1;
    for (int shape = 0; shape < (int)(sizeof shapes / sizeof *shapes); shape++)
        for (int order = 0; order < 3; order++) {
            size_t deep[3];
            make(shapes[shape].shape, order);
            for (which = 0; which < 3; which++) {
                deep[which] = depth();
                if (deep[which] > worst) worst = deep[which], worst_shape = shape, worst_order = order, worst_call = which;
            }
            printf("%-27s %-10s run %7zu recheck %7zu passes %7zu\n", shapes[shape].name, orders[order], deep[0], deep[1], deep[2]);
            fflush(stdout);
        }
    make(shapes[worst_shape].shape, worst_order);
    which = 0, depth();
    which = worst_call;
    for (enough = MOST; enough > PAGE && !faults(enough - PAGE);) enough -= enough > 2 * worst ? enough / 2 / PAGE * PAGE : PAGE;
    printf("stack: at most %zu bytes; with %zu the deepest call faults, with %zu it does not; the header asks for %d\n", worst, enough - PAGE, enough, HALTZURME_STACK);
    return enough > HALTZURME_STACK;
}
