/* The largest plans through the archive: accepted as they are, with one slot changed answered as plain C answers, their adjusted times those of plain C, and
   three cycles of them played as plain C plays them. Each file, and the longest there is, is written back as it was. What an edition allows is accepted up to
   its limit, and one more is refused by every call. A plan with periods that come together late is accepted too. The latest adjusted release and the earliest
   adjusted deadline are those of a line of 64 jobs. */
#include "../bench/largest.h"
#include "calls.h"
#include <stdio.h>

static int passed, failed;

static void expect(int right, const char *what)
{
    if (right) {
        passed++;
    } else {
        failed++;
        printf("%s: not as it should be\n", what);
    }
}

static void judge_both(const made *f, const uint8_t *slots, const char *what)
{
    size_t n = f->length - f->tasks;
    expect(agrees(call_judge(f->bytes, f->tasks, slots, n), plain_judge(f->bytes, f->tasks, slots, n)), what);
}

static void adjust_both(const made *f, const char *what)
{
    static int32_t r1[FLUTE_MOST_JOBS], d1[FLUTE_MOST_JOBS], r2[FLUTE_MOST_JOBS], d2[FLUTE_MOST_JOBS];
    size_t n = f->jobs;
    expect(agrees(call_adjust(f->bytes, f->tasks, r1, n, d1, n), plain_adjust(f->bytes, f->tasks, r2, n, d2, n)), what);
    expect(!memcmp(r1, r2, 4 * n) && !memcmp(d1, d2, 4 * n), what);
}

static void play_both(const made *f, const uint8_t *slots, const char *what)
{
    uint8_t s1[FLUTE_STATE_BYTES], s2[FLUTE_STATE_BYTES], o1[FLUTE_MOST_PROCESSORS], o2[FLUTE_MOST_PROCESSORS];
    size_t n = f->length - f->tasks;
    uint32_t k;
    expect(agrees(call_start(f->bytes, f->tasks, slots, n, s1, sizeof s1), plain_start(f->bytes, f->tasks, slots, n, s2, sizeof s2)), what);
    for (k = 0; k < 3 * f->cycle; k++) {
        uint64_t report = below(2) ? any() & any() : 0;
        answer a = call_step(f->bytes, f->tasks, slots, n, report, s1, sizeof s1, o1, f->processors);
        plain_answer b = plain_step(f->bytes, f->tasks, slots, n, report, s2, sizeof s2, o2, f->processors);
        expect(agrees(a, b) && !memcmp(s1, s2, sizeof s1) && !memcmp(o1, o2, f->processors), what);
    }
}

/* A write into the first bytes of a buffer: the file stands there and nothing else has changed, or they are too few and nothing has. */
static void write_into(const made *f, size_t room, const char *what)
{
    static uint8_t out[FLUTE_LONGEST_FILE], right[FLUTE_LONGEST_FILE];
    const uint8_t *slots = f->bytes + f->tasks;
    size_t n = f->length - f->tasks;
    plain_answer b = {18, {0}};
    answer a;
    memset(out, 0xEE, sizeof out);
    memset(right, 0xEE, sizeof right);
    if (room >= f->length) {
        b.number = 0;
        b.evidence[0] = (uint32_t)f->length;
        memcpy(right, f->bytes, f->length);
    }
    a = call_write(f->bytes, f->tasks, slots, n, out, room);
    expect(agrees(a, b), what);
    expect(asked_again(a, f->bytes, f->tasks, slots, n, out, room), what);
    expect(!memcmp(out, right, sizeof out), what);
}

static void write_back(const made *f, const char *what)
{
    answer a = call_read(f->bytes, f->length);
    expect(a.number == 0 && a.evidence[0] == f->tasks, what);
    write_into(f, 0, what);
    write_into(f, f->length - 1, what);
    write_into(f, f->length, what);
    write_into(f, FLUTE_LONGEST_FILE, what);
}

static void change_slots(const made *f, uint32_t changes, const char *what)
{
    static uint8_t slots[48000];
    size_t n = f->length - f->tasks;
    memcpy(slots, f->bytes + f->tasks, n);
    while (changes--) {
        size_t at = below((uint32_t)n);
        uint8_t was = slots[at];
        slots[at] = (uint8_t)below(66);
        judge_both(f, slots, what);
        slots[at] = was;
    }
    judge_both(f, slots, what);
}

static void accepted(const made *f, const char *what)
{
    const uint8_t *slots = f->bytes + f->tasks;
    size_t n = f->length - f->tasks;
    uint8_t state[FLUTE_STATE_BYTES];
    plain_answer fine = {0, {0}};
    write_back(f, what);
    adjust_both(f, what);
    expect(agrees(call_screen(f->bytes, f->tasks), fine), what);
    expect(agrees(call_judge(f->bytes, f->tasks, slots, n), fine), what);
    expect(agrees(call_start(f->bytes, f->tasks, slots, n, state, sizeof state), fine), what);
}

static void run(const made *f, const char *what)
{
    accepted(f, what);
    change_slots(f, 2000, what);
    play_both(f, f->bytes + f->tasks, what);
}

/* A head that the reader refuses by a number at a place is bad tasks to every other call. */
static void refused(const made *f, uint32_t number, size_t place, const char *what)
{
    static uint8_t out[FLUTE_LONGEST_FILE];
    static int32_t releases[FLUTE_MOST_JOBS], deadlines[FLUTE_MOST_JOBS];
    const uint8_t *slots = f->bytes + f->tasks;
    size_t n = f->length - f->tasks;
    uint8_t state[FLUTE_STATE_BYTES] = {0}, row[FLUTE_MOST_PROCESSORS];
    plain_answer at = {number, {(uint32_t)place}}, bad = {10, {0}};
    expect(agrees(call_read(f->bytes, f->length), at), what);
    expect(agrees(call_write(f->bytes, f->tasks, slots, n, out, sizeof out), bad), what);
    expect(agrees(call_screen(f->bytes, f->tasks), bad), what);
    expect(agrees(call_adjust(f->bytes, f->tasks, releases, f->jobs, deadlines, f->jobs), bad), what);
    expect(agrees(call_judge(f->bytes, f->tasks, slots, n), bad), what);
    expect(agrees(call_start(f->bytes, f->tasks, slots, n, state, sizeof state), bad), what);
    expect(agrees(call_step(f->bytes, f->tasks, slots, n, 0, state, sizeof state, row, f->processors), bad), what);
}

/* Two tasks with one job and 2,047 in a cycle, the most that there can be, and one pair from one to the other. The first runs in tick 1, the second in every
   other tick from 0 on. */
static void one_pair(made *f, uint32_t edition, uint32_t from, uint32_t a, uint32_t b)
{
    uint32_t head[] = {edition, 2, 1, 4094, 1, 0, 4094, 2, 1, 0, 2, 1, from, 1 - from, 1, a, b}, k;
    f->length = 0;
    for (k = 0; k < sizeof head / sizeof *head; k++)
        put(f, head[k]);
    f->tasks = f->length;
    for (k = 0; k < 4094; k++)
        f->bytes[f->length++] = (uint8_t)(k == 1 ? 1 : k % 2 ? 0 : 2);
    f->processors = 1;
    f->cycle = 4094;
    f->count = 2;
    f->jobs = 2048;
}

/* Numbers of a pair at the limits of the editions; a number at fault has two bytes, and the head ends with the second of the pair. */
static void try_editions(made *f)
{
    one_pair(f, 1, 0, 0, 2046);
    accepted(f, "the last job of the cycle, edition 1");
    one_pair(f, 1, 0, 0, 2047);
    refused(f, 6, f->tasks - 2, "a job of the next cycle, edition 1");
    one_pair(f, 2, 0, 0, 2047);
    accepted(f, "the first job of the next cycle, edition 2");
    one_pair(f, 2, 0, 0, 4093);
    accepted(f, "the last job of the next cycle, edition 2");
    one_pair(f, 2, 0, 0, 4094);
    refused(f, 6, f->tasks - 2, "a job of the next cycle but one, edition 2");
    one_pair(f, 2, 1, 2046, 1);
    accepted(f, "from the last job of the cycle into the next, edition 2");
    one_pair(f, 2, 1, 2047, 1);
    refused(f, 6, f->tasks - 3, "from a job of the next cycle, edition 2");
    one_pair(f, 0, 0, 0, 1);
    refused(f, 3, 0, "edition 0");
    one_pair(f, 3, 0, 0, 1);
    refused(f, 3, 0, "edition 3");
}

/* The last tick of task 45's last job goes from tick 5,944 to 6,040, in the next cycle and still in its window. By then task 0 has begun the job that waits for
   it by the second of the pairs from 45 to 0. */
static void break_onward(const made *f)
{
    static uint8_t slots[48000];
    plain_answer broken = {23, {48, 1, 9}};
    size_t n = f->length - f->tasks, from = 5944 * 8, to = 40 * 8;
    memcpy(slots, f->bytes + f->tasks, n);
    while (from < 5945 * 8 && slots[from] != 46)
        from++;
    while (to < 41 * 8 && slots[to])
        to++;
    expect(from < 5945 * 8 && to < 41 * 8, "a tick of task 45, and an idle one");
    slots[from] = 0;
    slots[to] = 46;
    expect(agrees(call_judge(f->bytes, f->tasks, slots, n), broken), "a broken link into the next cycle");
}

/* A line of 64 jobs that each need their whole window of 6,000 ticks, from the lowest task to the highest or back: a release leaves time for all jobs before it,
   a deadline for all after it. */
static void longest_line(made *f, int back, const char *what)
{
    int32_t releases[64], deadlines[64];
    uint32_t i;
    plain_answer fine = {0, {0}}, load = {14, {384000, 48000}};
    f->length = 0;
    put(f, 1);
    put(f, 64);
    put(f, 8);
    for (i = 0; i < 64; i++) {
        put(f, 6000);
        put(f, 6000);
        put(f, 5999);
        put(f, 6000);
    }
    put(f, 63);
    for (i = 0; i < 63; i++) {
        put(f, back ? i + 1 : i);
        put(f, back ? i : i + 1);
        put(f, 1);
        put(f, 0);
        put(f, 0);
    }
    f->tasks = f->length;
    expect(agrees(call_screen(f->bytes, f->tasks), load), what);
    expect(agrees(call_adjust(f->bytes, f->tasks, releases, 64, deadlines, 64), fine), what);
    for (i = 0; i < 64; i++) {
        int32_t before = (int32_t)(back ? 63 - i : i);
        expect(releases[i] == 5999 + 6000 * before, what);
        expect(deadlines[i] == 11999 - 6000 * (63 - before), what);
    }
}

int main(void)
{
    static made f;
    seed = 20261115;
    largest(&f);
    run(&f, "largest plan");
    largest_onward(&f, 0);
    accepted(&f, "largest plan of edition 2");
    change_slots(&f, 200, "largest plan of edition 2");
    break_onward(&f);
    largest_onward(&f, 1);
    refused(&f, 9, f.tasks, "a link too many");
    full(&f);
    run(&f, "every slot in use");
    far_apart(&f);
    accepted(&f, "periods far apart");
    longest_file(&f);
    write_back(&f, "most pairs");
    longest_of_all(&f, 1);
    write_back(&f, "longest file");
    longest_of_all(&f, 2);
    write_back(&f, "longest file of edition 2");
    try_editions(&f);
    longest_line(&f, 0, "a line of jobs");
    longest_line(&f, 1, "a line of jobs from the last task to the first");
    printf("%d passed, %d failed\n", passed, failed);
    return failed != 0;
}
