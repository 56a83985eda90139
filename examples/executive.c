/* A small executive: reads a plan file, has it judged, and plays it tick by tick.

       executive PLAN [CYCLES]         two cycles are played where no number is given

   It prints a line whenever something changes: the tick since the start, what each processor runs (`.` is idle, 3 is task 3), and which tasks finish in that
   tick. The tasks here do no work: where a real executive lets them run for a tick and then looks who is through, this one has a rule, so that early finishes
   can be seen. The ticks that were planned for the rest of a finished job stay idle; no other task is moved into them.

   A refusal is printed with its number and evidence, and the exit status is 1; include/flute.h says what they mean. examples/build.sh builds it. */
#include "../include/flute.h"
#include <stdio.h>
#include <stdlib.h>
#include <string.h>

static uint8_t file[FLUTE_LONGEST_FILE + 1]; /* a byte more, so that a file that is too long is refused and not cut */
static size_t file_len;

/* The two parts of the file, which are what the other calls take. */
static const uint8_t *tasks, *plan;
static size_t tasks_len, plan_len;

static uint8_t state[FLUTE_STATE_BYTES], row[FLUTE_MOST_PROCESSORS];
static unsigned processors;

/* Calls, and where the call refuses prints its number and evidence. After a refusal the arguments are as they were, so that the partner can still be asked. */
static uint32_t number;
#define REFUSES(call, ...) \
    ((number = call(__VA_ARGS__)) \
     && said(#call, (uint32_t[]){call##_evidence(__VA_ARGS__, 0), call##_evidence(__VA_ARGS__, 1), call##_evidence(__VA_ARGS__, 2), \
                                 call##_evidence(__VA_ARGS__, 3), call##_evidence(__VA_ARGS__, 4)}))

static int said(const char *call, const uint32_t e[5])
{
    fprintf(stderr, "%s refuses by %u, evidence %u %u %u %u %u\n", call, number, e[0], e[1], e[2], e[3], e[4]);
    return 1;
}

/* Reads the file and splits it at the place of its first slot. */
static int load(const char *path)
{
    FILE *f = fopen(path, "rb");
    if (!f)
        return fprintf(stderr, "%s cannot be opened\n", path), 0;
    file_len = fread(file, 1, sizeof file, f);
    fclose(f);
    if (REFUSES(flute_read, file, file_len))
        return 0;
    tasks = file;
    tasks_len = flute_read_evidence(file, file_len, 0);
    plan = file + tasks_len;
    plan_len = file_len - tasks_len;
    processors = tasks[2]; /* edition, task count and m have a byte each */
    return 1;
}

/* Stands for a tick of work. The rule: a task that runs at tick t finishes in it if t + task can be divided by 7. */
static uint64_t work(uint64_t tick)
{
    uint64_t finished = 0;
    unsigned q;
    for (q = 0; q < processors; q++)
        if (row[q] && (tick + row[q] - 1) % 7 == 0)
            finished |= (uint64_t)1 << (row[q] - 1);
    return finished;
}

static void print_row(uint64_t tick, uint64_t finished)
{
    unsigned q, i;
    printf("%6llu ", (unsigned long long)tick);
    for (q = 0; q < processors; q++)
        row[q] ? printf(" %2u", row[q] - 1u) : printf("  .");
    for (i = 0; i < FLUTE_MOST_TASKS; i++)
        if (finished >> i & 1)
            printf("   task %u finishes", i);
    printf("\n");
}

/* Plays so many ticks. Each step hears what finished in the tick before. */
static int play(uint64_t ticks)
{
    uint8_t shown[FLUTE_MOST_PROCESSORS] = {FLUTE_MOST_TASKS + 1}; /* no row is like this one */
    uint64_t tick, finished = 0;
    if (REFUSES(flute_start, tasks, tasks_len, plan, plan_len, state, sizeof state))
        return 0;
    for (tick = 0; tick < ticks; tick++) {
        if (REFUSES(flute_step, tasks, tasks_len, plan, plan_len, finished, state, sizeof state, row, processors))
            return 0;
        finished = work(tick);
        if (finished || memcmp(shown, row, processors))
            print_row(tick, finished);
        memcpy(shown, row, processors);
    }
    return 1;
}

int main(int argc, char **argv)
{
    uint64_t cycles = argc > 2 ? strtoull(argv[2], NULL, 10) : 2;
    if (argc < 2)
        return fprintf(stderr, "executive PLAN [CYCLES]\n"), 2;
    if (!load(argv[1]) || REFUSES(flute_judge, tasks, tasks_len, plan, plan_len))
        return 1;
    printf("accepted: tasks %u, processors %u, cycle %zu\n", tasks[1], processors, plan_len / processors);
    return play(cycles * (plan_len / processors)) ? 0 : 1;
}
