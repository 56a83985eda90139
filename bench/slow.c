/* Times flute_screen on the largest sets whose links are hard on it: long chains of jobs, down the tasks, up them, and to and fro between them, alone, into a
   cycle, out of one, and between two. Prints a table: what was answered, and the processor's milliseconds of the fastest of three calls, of the archive and of plain C. */
#include "../include/flute.h"
#include "plain.h"
#include <stdio.h>
#include <string.h>
#include <time.h>

enum { PLACES = 64, PAIRS = 1024 };

/* A set while it is made: periods, running time 1 each, and the pairs of each pattern by its two tasks. */
static struct {
    uint32_t tasks, cycle, period[PLACES];
    struct {
        uint32_t from, to, a, b;
    } pair[PAIRS];
    uint32_t pairs;
} set;

static uint8_t bytes[1 << 15];
static size_t length;

static void put(uint32_t x)
{
    for (; x >= 128; x /= 128)
        bytes[length++] = (uint8_t)(x % 128 + 128);
    bytes[length++] = (uint8_t)x;
}

static void begin(uint32_t cycle)
{
    set.tasks = set.pairs = 0;
    set.cycle = cycle;
}

/* n tasks that have `jobs` jobs in a cycle. */
static void add_tasks(uint32_t n, uint32_t jobs)
{
    while (n--)
        set.period[set.tasks++] = set.cycle / jobs;
}

static void link(uint32_t from, uint32_t a, uint32_t to, uint32_t b)
{
    if (set.pairs == PAIRS)
        return;
    set.pair[set.pairs].from = from;
    set.pair[set.pairs].to = to;
    set.pair[set.pairs].a = a;
    set.pair[set.pairs++].b = b;
}

static uint32_t gcd(uint32_t a, uint32_t b) { return b ? gcd(b, a % b) : a; }

/* The pairs in the order of the file, patterns rising by their tasks and pairs by their numbers; how many links a cycle has. */
static uint32_t put_patterns(void)
{
    static uint8_t lent[1 << 15];
    uint32_t i, j, k, a, b, patterns = 0, links = 0;
    size_t start = length, n;
    for (i = 0; i < set.tasks; i++)
        for (j = 0; j < set.tasks; j++) {
            uint32_t count = 0, together = set.period[i] / gcd(set.period[i], set.period[j]) * set.period[j];
            for (k = 0; k < set.pairs; k++)
                count += set.pair[k].from == i && set.pair[k].to == j;
            if (!count)
                continue;
            patterns++;
            links += count * (set.cycle / together);
            put(i);
            put(j);
            put(count);
            for (a = 0; a < together / set.period[i]; a++)
                for (b = 0; b < together / set.period[j]; b++)
                    for (k = 0; k < set.pairs; k++)
                        if (set.pair[k].from == i && set.pair[k].to == j && set.pair[k].a == a && set.pair[k].b == b) {
                            put(a);
                            put(b);
                        }
        }
    n = length - start;
    memcpy(lent, bytes + start, n);
    length = start;
    put(patterns);
    memcpy(bytes + length, lent, n);
    length += n;
    return links;
}

static double now(void)
{
    struct timespec t;
    clock_gettime(CLOCK_PROCESS_CPUTIME_ID, &t);
    return (double)t.tv_sec * 1e3 + (double)t.tv_nsec / 1e6;
}

static void measure(const char *what)
{
    uint32_t i, jobs = 0, links, answer = 0;
    double best = 0, plain = 0;
    length = 0;
    put(1);
    put(set.tasks);
    put(8);
    for (i = 0; i < set.tasks; i++) {
        put(set.period[i]);
        put(1);
        put(0);
        put(set.period[i]);
        jobs += set.cycle / set.period[i];
    }
    links = put_patterns();
    for (i = 0; i < 3 && best < 1000; i++) {
        double start = now(), took;
        answer = flute_screen(bytes, length);
        took = now() - start;
        if (!i || took < best)
            best = took;
    }
    for (i = 0; i < 3 && plain < 1000; i++) {
        double start = now(), took;
        plain_answer r = plain_screen(bytes, length);
        took = now() - start;
        if (r.number != answer)
            printf("PLAIN C SAYS %u\n", r.number);
        if (!i || took < plain)
            plain = took;
    }
    printf("| %s | %u | %u | %u %u %u | %.2f | %.2f |\n", what, jobs, links, answer, flute_screen_evidence(bytes, length, 0), flute_screen_evidence(bytes, length, 1), best, plain);
}

/* The set with its tasks in another order, and so its links: task i is the one at place to[i]. */
static void reorder(const uint32_t *to)
{
    uint32_t i, period[PLACES];
    memcpy(period, set.period, sizeof period);
    for (i = 0; i < set.tasks; i++)
        set.period[to[i]] = period[i];
    for (i = 0; i < set.pairs; i++) {
        set.pair[i].from = to[set.pair[i].from];
        set.pair[i].to = to[set.pair[i].to];
    }
}

/* In the opposite order: what is a good order for releases is a bad one for deadlines. */
static void turn(void)
{
    uint32_t i, to[PLACES];
    for (i = 0; i < set.tasks; i++)
        to[i] = set.tasks - 1 - i;
    reorder(to);
}

/* From both ends to the middle: a chain that goes down the tasks goes to and fro then, so that it is in order in no direction. */
static void weave(void)
{
    uint32_t i, to[PLACES];
    for (i = 0; i < set.tasks; i++)
        to[i] = i % 2 ? set.tasks - 1 - i / 2 : i / 2;
    reorder(to);
}

static void measure_both(const char *what)
{
    char turned[64];
    measure(what);
    turn();
    snprintf(turned, sizeof turned, "%s, tasks turned round", what);
    measure(turned);
}

/* One chain through all jobs: down the tasks 62 to 0 in each of 32 columns, and by task 63, which has 31 jobs, on to the next column. Links that come later
   in the chain stand earlier in the list, so that a pass over the list goes on by one link. The pairs that are left skip along the chain. */
static void chain(int in, int out)
{
    uint32_t i, j, k;
    begin(5952);
    add_tasks(63, 32);
    add_tasks(1, 31);
    for (i = 62; i > 0; i--)
        link(i, 0, i - 1, 0);
    for (k = 0; k < 31; k++) {
        link(0, k, 63, k);
        link(63, k, 62, k + 1);
    }
    if (in)
        link(63, 30, 62, 30);
    if (out)
        link(63, 0, 62, 0);
    for (k = 0; k < 31; k++)
        for (j = k + 1; j < 31; j++) {
            link(0, k, 63, j);
            link(63, k, 62, j + 1);
        }
}

/* The same chain in fewer columns, between two cycles of two jobs each that have high numbers: each job of the chain is searched before them. Pairs
   that skip would only shorten the search. */
static void between(void)
{
    uint32_t i, k;
    begin(5952);
    add_tasks(62, 32);
    add_tasks(1, 31);
    for (i = 61; i > 0; i--)
        link(i, 0, i - 1, 0);
    for (k = 0; k < 30; k++)
        link(0, k, 62, k);
    for (k = 0; k < 29; k++)
        link(62, k, 61, k + 1);
    link(62, 30, 61, 0);
    link(61, 0, 62, 30);
    link(62, 29, 61, 31);
    link(61, 31, 62, 29);
}

/* Four chains at once, of 434 jobs each: every pair stands for four links. Tasks of 28 and 36 jobs take turns, seven jobs of each in a chain. */
static void four(int in, int out)
{
    uint32_t i, j, k;
    begin(5292);
    for (i = 0; i < 31; i++) {
        add_tasks(1, 36);
        add_tasks(1, 28);
    }
    add_tasks(1, 36);
    add_tasks(1, 27);
    for (i = 61; i > 0; i--)
        for (k = 0; k < 7; k++)
            link(i, k, i - 1, k);
    for (k = 0; k < 6; k++)
        link(0, k, 61, k + 1);
    if (in)
        link(0, 6, 61, 6);
    if (out)
        link(0, 0, 61, 0);
    for (i = 61; i > 0; i--)
        for (k = 0; k < 7; k++)
            for (j = k + 1; j < 7; j++)
                link(i, k, i - 1, j);
}

int main(void)
{
    printf("| links | jobs | links in a cycle | number and evidence | archive, ms | plain C, ms |\n|---|---:|---:|---|---:|---:|\n");
    chain(0, 0);
    measure_both("a chain down the tasks");
    chain(0, 0);
    weave();
    measure("a chain to and fro");
    chain(1, 0);
    measure_both("into a cycle");
    chain(0, 1);
    measure_both("out of one");
    between();
    measure_both("between two");
    four(0, 0);
    measure_both("four chains down the tasks");
    four(0, 0);
    weave();
    measure("four chains to and fro");
    four(1, 0);
    measure_both("each into a cycle");
    four(0, 1);
    measure_both("each out of one");
    return 0;
}
