/* Plays a small plan past 2^32 ticks, and compares every row that is shown with the plan, at true time in 64 bits. A tick taken from a 32-bit count modulo the
   cycle would show other rows from 2^32 on, since the cycle of 15 does not divide it.
   soak [TICKS]         2^32 and a million where no number is given

   Tasks (T, C, O, D): 0 is (3, 1, 0, 3), 1 is (5, 2, 1, 5); one processor. What is expected is worked out job by job, and not from marks as the dispatcher has
   them: job k of task i finishes in its first tick if k + i can be divided by 4, and shows no other tick then; each other job shows all its planned ticks. A
   task that does not run is reported as finished all the time, which must not count. */
#include "../include/flute.h"
#include <stdio.h>
#include <stdlib.h>

enum { H = 15, TASKS = 2, ALL = 3 };
static const uint8_t tasks[] = {1, TASKS, 1, 3, 1, 0, 3, 5, 2, 1, 5, 0};
static const uint8_t plan[H] = {2, 1, 2, 1, 2, 0, 1, 2, 2, 1, 0, 2, 1, 0, 0}; /* slot 0 is the end of a job that began before the cycle */
static const uint32_t period[TASKS] = {3, 5}, offset[TASKS] = {0, 1};
static int opens[H]; /* whether a slot is the first planned tick of its job */
static unsigned long long ticks, wrong, idle, run;

static void find_opens(void)
{
    uint32_t c, i, past, x;
    for (c = 0; c < H; c++) {
        if (!plan[c])
            continue;
        i = plan[c] - 1u;
        past = (c + H - offset[i]) % H;
        opens[c] = 1;
        for (x = past / period[i] * period[i]; x < past; x++)
            if (plan[(offset[i] + x) % H] == plan[c])
                opens[c] = 0;
    }
}

/* What tick t shows, and in *finished the report about it. */
static uint8_t expected(uint64_t t, uint32_t c, uint64_t *finished)
{
    uint32_t i = plan[c] - 1u;
    int early;
    *finished = ALL;
    if (!plan[c] || t < offset[i])
        return 0;
    early = ((t - offset[i]) / period[i] + i) % 4 == 0;
    if (early && !opens[c]) {
        idle++;
        return 0;
    }
    run++;
    if (!early)
        *finished = ALL & ~((uint64_t)1 << i);
    return plan[c];
}

int main(int argc, char **argv)
{
    uint64_t t, report = 0;
    uint32_t c = 0;
    uint8_t state[FLUTE_STATE_BYTES], out;
    ticks = argc > 1 ? strtoull(argv[1], NULL, 0) : (1ull << 32) + 1000000;
    find_opens();
    if (flute_start(tasks, sizeof tasks, plan, H, state, sizeof state))
        return printf("the plan is refused\n0 passed, 1 failed\n"), 1;
    for (t = 0; t < ticks; t++) {
        uint32_t number = flute_step(tasks, sizeof tasks, plan, H, report, state, sizeof state, &out, 1);
        uint8_t right = expected(t, c, &report);
        if ((number || out != right) && wrong++ < 20)
            printf("tick %llu: answers %u and shows %u, not %u\n", (unsigned long long)t, number, out, right);
        c = c + 1 < H ? c + 1 : 0;
        if ((t + 1) % (1u << 28) == 0) {
            printf("%llu ticks, %llu differ\n", (unsigned long long)t + 1, wrong);
            fflush(stdout);
            if ((t + 1) % H != c || state[0] != c)
                return printf("the tick of the cycle is %u, not %u\n0 passed, 1 failed\n", state[0], (uint32_t)((t + 1) % H)), 1;
        }
    }
    printf("%llu ticks: a task ran in %llu, and in %llu stayed idle after an early finish\n", ticks, run, idle);
    printf("%llu passed, %llu failed\n", ticks - wrong, wrong);
    return wrong != 0;
}
