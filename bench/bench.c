/* How fast the archive is beside the same jobs in plain C, how its time grows with the plan, and how much stack its calls touch; printed as a part of a page in
   Markdown. Both sides are in one program and take turns; each time is the best of several rounds.
   bench FLIGHT_FILE CASE_A_FILE */
#define _GNU_SOURCE
#include "../include/flute.h"
#include "largest.h"
#include "plain.h"
#include <stdio.h>
#include <stdlib.h>
#include <sys/mman.h>
#include <time.h>
#include <ucontext.h>

static volatile uint32_t sink;
static made file;
static plain_set set;

static const uint8_t *slots(void) { return file.bytes + file.tasks; }
static size_t slot_count(void) { return file.length - file.tasks; }

/* ---- the jobs, each in both ways. A step goes on from the last state, so that whole cycles are played. */
static void read_archive(void) { sink = flute_read(file.bytes, file.length); }
static void read_plain(void) { sink = plain_read(file.bytes, file.length, &set).number; }
static uint8_t written[2][FLUTE_LONGEST_FILE];
static void write_archive(void) { sink = flute_write(file.bytes, file.tasks, slots(), slot_count(), written[0], sizeof written[0]); }
static void write_plain(void) { sink = plain_write(file.bytes, file.tasks, slots(), slot_count(), written[1], sizeof written[1]).number; }
static void screen_archive(void) { sink = flute_screen(file.bytes, file.tasks); }
static void screen_plain(void) { sink = plain_screen(file.bytes, file.tasks).number; }
static void judge_archive(void) { sink = flute_judge(file.bytes, file.tasks, slots(), slot_count()); }
static void judge_plain(void) { sink = plain_judge(file.bytes, file.tasks, slots(), slot_count()).number; }
static void read_shown(void) { sink = flute_read_evidence(file.bytes, file.length, 0); }
static void write_shown(void) { sink = flute_write_evidence(file.bytes, file.tasks, slots(), slot_count(), written[0], sizeof written[0], 0); }
static void screen_shown(void) { sink = flute_screen_evidence(file.bytes, file.tasks, 0); }
static void judge_shown(void) { sink = flute_judge_evidence(file.bytes, file.tasks, slots(), slot_count(), 0); }
static int32_t releases[FLUTE_MOST_JOBS], deadlines[FLUTE_MOST_JOBS];
static uint8_t state[2][FLUTE_STATE_BYTES], out[2][FLUTE_MOST_PROCESSORS];
static void adjust_archive(void) { sink = flute_adjust(file.bytes, file.tasks, releases, file.jobs, deadlines, file.jobs); }
static void adjust_plain(void) { sink = plain_adjust(file.bytes, file.tasks, releases, file.jobs, deadlines, file.jobs).number; }
static void start_archive(void) { sink = flute_start(file.bytes, file.tasks, slots(), slot_count(), state[0], sizeof state[0]); }
static void start_plain(void) { sink = plain_start(file.bytes, file.tasks, slots(), slot_count(), state[1], sizeof state[1]).number; }
static void step_archive(void)
{
    sink = flute_step(file.bytes, file.tasks, slots(), slot_count(), 0, state[0], sizeof state[0], out[0], file.processors);
}
static void step_plain(void)
{
    sink = plain_step(file.bytes, file.tasks, slots(), slot_count(), 0, state[1], sizeof state[1], out[1], file.processors).number;
}
static void adjust_shown(void) { sink = flute_adjust_evidence(file.bytes, file.tasks, releases, file.jobs, deadlines, file.jobs, 0); }
static void start_shown(void) { sink = flute_start_evidence(file.bytes, file.tasks, slots(), slot_count(), state[0], sizeof state[0], 0); }
static void step_shown(void)
{
    sink = flute_step_evidence(file.bytes, file.tasks, slots(), slot_count(), 0, state[0], sizeof state[0], out[0], file.processors, 0);
}

/* Start stands before step, so that a step has a state. */
static const struct {
    const char *name;
    void (*archive)(void), (*plain)(void), (*shown)(void);
} calls[] = {{"read", read_archive, read_plain, read_shown},
             {"write", write_archive, write_plain, write_shown},
             {"screen", screen_archive, screen_plain, screen_shown},
             {"adjust", adjust_archive, adjust_plain, adjust_shown},
             {"judge", judge_archive, judge_plain, judge_shown},
             {"start", start_archive, start_plain, start_shown},
             {"step", step_archive, step_plain, step_shown},
};
enum { READ, WRITE, CALLS = sizeof calls / sizeof *calls }; /* the first two are called by name */

/* ---- times */
static double now(void)
{
    struct timespec t;
    clock_gettime(CLOCK_MONOTONIC, &t);
    return (double)t.tv_sec * 1e9 + (double)t.tv_nsec;
}

static double once(void (*job)(void), long turns)
{
    double begin = now();
    long k;
    for (k = 0; k < turns; k++)
        job();
    return (now() - begin) / (double)turns;
}

typedef struct {
    double archive, plain; /* ns */
    int differ;            /* the two answered differently: then the times compare nothing */
} pace;

static pace measure(int call)
{
    pace best = {1e18, 1e18, 0};
    uint32_t answered;
    long turns = 1;
    int round;
    calls[call].archive();
    answered = sink;
    calls[call].plain();
    best.differ = answered != sink;
    while (once(calls[call].plain, turns) * (double)turns < 1e6)
        turns *= 2;
    for (round = 0; round < 60; round++) {
        double x = once(calls[call].archive, turns), y = once(calls[call].plain, turns);
        best.archive = x < best.archive ? x : best.archive;
        best.plain = y < best.plain ? y : best.plain;
    }
    return best;
}

static void print_time(double ns)
{
    if (ns < 1000)
        printf("%.0f ns", ns);
    else if (ns < 1e5)
        printf("%.1f us", ns / 1e3);
    else
        printf("%.0f us", ns / 1e3);
}

static void row(int call, const char *what)
{
    pace p = measure(call);
    printf("| %s | %s | ", what, calls[call].name);
    print_time(p.archive);
    printf(" | ");
    print_time(p.plain);
    printf(" | %.2f%s |\n", p.archive / p.plain, p.differ ? " (THE ANSWERS DIFFER)" : "");
}

static void rows(const char *what)
{
    int k;
    for (k = 0; k < CALLS; k++)
        row(k, k ? "" : what);
}

/* A line of a table of growth: a call to a column, its time, and its ratio to plain C. */
static void growth_row(uint32_t n, uint32_t h)
{
    int k;
    growth(&file, n, h);
    judge_plain();
    printf("| %u | %u | %zu%s |", n, h, slot_count(), sink ? " NOT ACCEPTED" : "");
    for (k = 0; k < CALLS; k++) {
        pace p = measure(k);
        printf(" ");
        print_time(p.archive);
        printf(" (%.2f)%s |", p.archive / p.plain, p.differ ? " THE ANSWERS DIFFER" : "");
    }
    printf("\n");
}

static void growth_head(void)
{
    int k;
    printf("| tasks | H | slots |");
    for (k = 0; k < CALLS; k++)
        printf(" %s |", calls[k].name);
    printf("\n|---:|---:|---:|");
    for (k = 0; k < CALLS; k++)
        printf("---:|");
    printf("\n");
}

static int load(const char *path)
{
    FILE *f = fopen(path, "rb");
    plain_answer r;
    if (!f)
        return 0;
    file.length = fread(file.bytes, 1, sizeof file.bytes, f);
    fclose(f);
    r = plain_read(file.bytes, file.length, &set);
    file.tasks = r.evidence[0];
    file.processors = set.processors;
    file.cycle = set.cycle;
    file.count = set.tasks;
    file.jobs = set.jobs;
    return r.number == 0;
}

/* ---- stack: a job runs on a stack of its own, which is painted before; what lost its paint was touched. */
enum { STACK = 1 << 20, PAINT = 0xA5 };
static uint8_t *stack;

static void nothing(void) {}

static size_t touched(void (*job)(void))
{
    static ucontext_t back, there;
    size_t k;
    memset(stack, PAINT, STACK);
    getcontext(&there);
    there.uc_stack.ss_sp = stack;
    there.uc_stack.ss_size = STACK;
    there.uc_link = &back;
    makecontext(&there, job, 0);
    swapcontext(&back, &there);
    for (k = 0; k < STACK && stack[k] == PAINT; k++)
        ;
    return STACK - k;
}

static size_t most[CALLS][3];

static void deepen(void)
{
    size_t base = touched(nothing), n;
    int k, j;
    for (k = 0; k < CALLS; k++) {
        void (*job[3])(void) = {calls[k].archive, calls[k].shown, calls[k].plain};
        for (j = 0; j < 3; j++) {
            n = touched(job[j]) - base;
            most[k][j] = n > most[k][j] ? n : most[k][j];
        }
    }
}

static void stacks(int argc, char **argv)
{
    int k;
    stack = mmap(NULL, STACK, PROT_READ | PROT_WRITE, MAP_PRIVATE | MAP_ANONYMOUS, -1, 0);
    if (stack == MAP_FAILED)
        return;
    largest(&file), deepen();
    largest_onward(&file, 0), deepen();
    longest_file(&file), deepen();
    full(&file), deepen();
    for (k = 1; k < argc && k < 3; k++)
        if (load(argv[k]))
            deepen();
    seed = 20261115;
    for (k = 0; k < 300; k++) {
        make(&file, 360, 1 + below(64), 0, 1 + below(64), k % 3 == 0 ? ANY : KEPT);
        deepen();
    }
    printf("| call | archive | its evidence | plain C |\n|---|---:|---:|---:|\n");
    for (k = 0; k < CALLS; k++)
        printf("| %s | %zu | %zu | %zu |\n", calls[k].name, most[k][0], most[k][1], most[k][2]);
}

int main(int argc, char **argv)
{
    static const uint32_t cycles[] = {600, 1200, 2400, 3600, 4800, 6000}, counts[] = {8, 16, 24, 32, 48, 64};
    size_t k;
    printf("## Archive and plain C\n\n| input | call | archive | plain C | ratio |\n|---|---|---:|---:|---:|\n");
    largest(&file);
    rows("largest plan: 64 tasks, 8 processors, H 6,000, 2,048 jobs, 4,096 links");
    largest_onward(&file, 0);
    rows("largest plan of edition 2: as many, 217 links into the next cycle");
    if (argc > 1 && load(argv[1]))
        rows("flight software of source 003: 10 tasks, 1 processor, H 2,000");
    if (argc > 2 && load(argv[2]))
        rows("case A: 3 tasks, 1 processor, H 24");
    full(&file);
    rows("every slot in use: 64 tasks, 8 processors, H 6,000, no link");
    far_apart(&file);
    rows("periods far apart: 64 tasks, 8 processors, H 6,000, 64 patterns between periods 48 and 125");
    longest_file(&file);
    row(READ, "longest file: 64 tasks, 64 patterns, 1,024 pairs");
    row(WRITE, "");
    file.length = file.tasks;
    row(READ, "its head alone, after which the file ends (1)");
    row(WRITE, "its head alone, with a plan of no slots (11)");
    periods(&file, 240, 250);
    row(READ, "64 tasks of two periods in turn, no pattern, no slots (1)");
    periods(&file, 250, 250);
    row(READ, "the same with one period: the difference is the share of the common multiple");
    periods(&file, 5998, 5997);
    row(READ, "the same with periods 5,997 and 5,998 in turn, whose multiple is over 6,000 (5)");
    printf("\n## Growth\n\nAccepted plans for 8 processors, about half of their slots in use; each task but the last has 10 jobs in a cycle, and half of the tasks precede "
           "another.\nA time, and in brackets its ratio to plain C.\n\n");
    growth_head();
    for (k = 0; k < sizeof cycles / sizeof *cycles; k++)
        growth_row(8, cycles[k]);
    for (k = 1; k < sizeof counts / sizeof *counts; k++)
        growth_row(counts[k], 6000);
    printf("\n## Stack\n\nBytes of a painted stack that a call touched, at most, over the inputs above and 300 random ones. Plain C keeps its tables in static memory, which "
           "the\narchive has none of.\n\n");
    stacks(argc, argv);
    return 0;
}
