/* Runs the outside cases of tests/vectors through the archive, or through what is linked in its place, and prints each that differs.
   vectors KIND FILE, with KIND one of reader, judge, screen, adjusted, step, write. */
#include "calls.h"
#include <stdio.h>
#include <stdlib.h>
#include <string.h>

enum { MOST = 1 + PLAIN_EVIDENCE }; /* numbers of an answer: its number and its evidence */
static char line[1 << 16];
static int number_of_line;

typedef struct {
    uint8_t bytes[1 << 15];
    size_t length;
} bytes;

static int nibble(int c) { return c >= '0' && c <= '9' ? c - '0' : c >= 'a' && c <= 'f' ? c - 'a' + 10 : -1; }

static char *hex(char *p, bytes *b)
{
    b->length = 0;
    while (*p == ' ')
        p++;
    if (*p == '-')
        return p + 1;
    while (nibble(p[0]) >= 0 && nibble(p[1]) >= 0) {
        b->bytes[b->length++] = (uint8_t)(nibble(p[0]) << 4 | nibble(p[1]));
        p += 2;
    }
    return p;
}

/* The numbers up to a bar or the end of the line; how many there are. */
static char *numbers(char *p, long *out, int most, int *n)
{
    *n = 0;
    while (*p && *p != '|' && *p != '\n') {
        char *end;
        long v = strtol(p, &end, 10);
        if (end == p) {
            p++;
            continue;
        }
        if (*n < most)
            out[*n] = v;
        ++*n;
        p = end;
    }
    return *p == '|' ? p + 1 : p;
}

/* The answer is the numbers of the line: the number, its evidence, and 0 past the last. */
static int same(answer r, const long *want, int n)
{
    int k;
    if (n < 1 || n > MOST || r.number != (uint32_t)want[0])
        return 0;
    for (k = 0; k < ASKED_FOR; k++)
        if (r.evidence[k] != (k + 1 < n ? (uint32_t)want[k + 1] : 0))
            return 0;
    return 1;
}

static void show(answer r)
{
    int k;
    printf("line %d: answered %u", number_of_line, r.number);
    for (k = 0; k < ASKED_FOR; k++)
        printf(" %u", r.evidence[k]);
    printf("\n");
}

/* What stands before the equals sign goes through the call, what stands behind it is the answer. */
static int compare(answer r, char *p)
{
    long want[MOST];
    int n;
    numbers(strchr(p, '=') + 1, want, MOST, &n);
    if (same(r, want, n))
        return 1;
    show(r);
    return 0;
}

static int run_reader(char *p)
{
    static bytes file;
    hex(p, &file);
    return compare(call_read(file.bytes, file.length), p);
}

static int run_judge(char *p)
{
    static bytes tasks, plan;
    hex(hex(p, &tasks), &plan);
    return compare(call_judge(tasks.bytes, tasks.length, plan.bytes, plan.length), p);
}

static int run_screen(char *p)
{
    static bytes tasks;
    hex(p, &tasks);
    return compare(call_screen(tasks.bytes, tasks.length), p);
}

static int run_adjusted(char *p)
{
    static bytes tasks;
    static long releases[2048], deadlines[2048];
    static int32_t got_releases[2048], got_deadlines[2048];
    long want[MOST];
    int n, jobs, jobs2, k;
    answer r;
    p = strchr(hex(p, &tasks), '=');
    p = numbers(p + 1, want, MOST, &n);
    p = numbers(p, releases, 2048, &jobs);
    numbers(p, deadlines, 2048, &jobs2);
    if (want[0]) { /* refused: any length will do but for 11, and nothing may be written */
        for (k = 0; k < 2048; k++)
            got_releases[k] = got_deadlines[k] = 77;
        for (jobs = 1; jobs <= 2048; jobs++) {
            r = call_adjust(tasks.bytes, tasks.length, got_releases, (size_t)jobs, got_deadlines, (size_t)jobs);
            if (r.number != 11)
                break;
        }
        for (k = 0; k < 2048; k++)
            if (got_releases[k] != 77 || got_deadlines[k] != 77)
                return printf("line %d: a refused call wrote\n", number_of_line), 0;
        if (same(r, want, n))
            return 1;
        show(r);
        return 0;
    }
    r = call_adjust(tasks.bytes, tasks.length, got_releases, (size_t)jobs, got_deadlines, (size_t)jobs2);
    if (!same(r, want, n)) {
        show(r);
        return 0;
    }
    for (k = 0; k < jobs; k++)
        if (got_releases[k] != releases[k] || got_deadlines[k] != deadlines[k])
            return printf("line %d: job %d has %d and %d\n", number_of_line, k, got_releases[k], got_deadlines[k]), 0;
    return 1;
}

static int run_step(char *p)
{
    static bytes tasks, plan, state, out, next, row;
    long want[MOST];
    int n;
    uint64_t report;
    answer r;
    p = hex(hex(p, &tasks), &plan);
    report = strtoull(p, &p, 10);
    p = hex(hex(p, &state), &out);
    p = strchr(p, '=');
    p = numbers(p + 1, want, MOST, &n);
    hex(hex(p, &next), &row);
    r = call_step(tasks.bytes, tasks.length, plan.bytes, plan.length, report, state.bytes, state.length, out.bytes, out.length);
    if (!same(r, want, n)) {
        show(r);
        return 0;
    }
    if (next.length != state.length || memcmp(next.bytes, state.bytes, next.length))
        return printf("line %d: another state\n", number_of_line), 0;
    if (row.length != out.length || memcmp(row.bytes, out.bytes, row.length))
        return printf("line %d: another output\n", number_of_line), 0;
    return 1;
}

static int run_write(char *p)
{
    static bytes tasks, plan, out, after;
    long want[MOST];
    int n;
    answer r;
    memset(out.bytes, 0xEE, sizeof out.bytes);
    memset(after.bytes, 0xEE, sizeof after.bytes);
    p = hex(hex(p, &tasks), &plan);
    out.length = strtoul(p, &p, 10);
    p = strchr(p, '=');
    p = numbers(p + 1, want, MOST, &n);
    hex(p, &after);
    r = call_write(tasks.bytes, tasks.length, plan.bytes, plan.length, out.bytes, out.length);
    if (!same(r, want, n)) {
        show(r);
        return 0;
    }
    if (!asked_again(r, tasks.bytes, tasks.length, plan.bytes, plan.length, out.bytes, out.length))
        return printf("line %d: other evidence after the call\n", number_of_line), 0;
    if (after.length != out.length || memcmp(after.bytes, out.bytes, sizeof out.bytes))
        return printf("line %d: another buffer\n", number_of_line), 0;
    return 1;
}

static const struct {
    const char *name;
    int (*run)(char *);
} kinds[] = {{"reader", run_reader}, {"judge", run_judge}, {"screen", run_screen},
           {"adjusted", run_adjusted}, {"step", run_step}, {"write", run_write}
};

int main(int argc, char **argv)
{
    int passed = 0, failed = 0;
    size_t k;
    FILE *f;
    if (argc != 3 || !(f = fopen(argv[2], "r")))
        return fprintf(stderr, "vectors KIND FILE\n"), 2;
    for (k = 0; k < sizeof kinds / sizeof *kinds && strcmp(argv[1], kinds[k].name); k++)
        ;
    if (k == sizeof kinds / sizeof *kinds)
        return fprintf(stderr, "vectors: no kind %s\n", argv[1]), 2;
    while (fgets(line, sizeof line, f)) {
        number_of_line++;
        if (line[0] == '#' || line[0] == '\n')
            continue;
        if (kinds[k].run(line))
            passed++;
        else
            failed++;
    }
    fclose(f);
    printf("%d passed, %d failed\n", passed, failed);
    return failed || !passed;
}
