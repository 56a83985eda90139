/* The largest plans, one of each edition: 64 tasks, 8 processors, H 6,000, 2,048 jobs, 4,096 links, accepted. 45 tasks of period 200 run at the start of their
   periods, 15 of period 150 from tick 90 of theirs on, so that a job of the first kind is over before the linked jobs of the second begin; 2 of period 250 and
   2 of period 240, which make the cycle 6,000, take the first free ticks. */
#ifndef LARGEST_H
#define LARGEST_H
#include "../tests/make.h"

static uint32_t largest_period(uint32_t i) { return i < 45 ? 200 : i < 60 ? 150 : i < 62 ? 250 : 240; }

/* A head up to its pattern count. The 15 tasks of period 150 have the first release that is given. */
static void largest_tasks(made *f, uint32_t edition, uint32_t offset, uint32_t patterns)
{
    uint32_t i;
    f->length = 0;
    put(f, edition);
    put(f, 64);
    put(f, 8);
    for (i = 0; i < 64; i++) {
        put(f, largest_period(i));
        put(f, 5);
        put(f, largest_period(i) == 150 ? offset : 0);
        put(f, largest_period(i));
    }
    put(f, patterns);
}

static void put_pattern(made *f, uint32_t from, uint32_t to, uint32_t count, const uint8_t (*pair)[2])
{
    uint32_t k;
    put(f, from);
    put(f, to);
    put(f, count);
    for (k = 0; k < count; k++) {
        put(f, pair[k][0]);
        put(f, pair[k][1]);
    }
}

/* The slots, behind a head that is put. */
static void largest_slots(made *f)
{
    enum { H = 6000, M = 8, N = 64, C = 5 };
    uint8_t *slots = f->bytes + f->length;
    uint32_t i, k, x, q;
    memset(slots, 0, M * H);
    for (i = 0; i < N; i++)
        for (k = 0; k < H / largest_period(i); k++) {
            uint32_t t = largest_period(i), from = k * t, got = 0;
            if (i < 45)
                from += i / M * C;
            else if (i < 60)
                from += 90 + (i - 45) / M * C;
            for (x = from; got < C && x < (k + 1) * t; x++) {
                for (q = 0; q < M && slots[x * M + q]; q++)
                    ;
                if (q == M)
                    continue;
                slots[x * M + q] = (uint8_t)(i + 1);
                got++;
            }
        }
    f->tasks = f->length;
    f->length += M * H;
    f->processors = M;
    f->cycle = H;
    f->count = N;
    f->jobs = 2048;
}

/* 51 patterns of 8 pairs, 10 links each, and one of 2 pairs, 8 links each. */
static void largest(made *f)
{
    static const uint8_t pair[8][2] = {{0, 0}, {0, 1}, {0, 2}, {0, 3}, {1, 1}, {1, 2}, {1, 3}, {2, 3}}, other[2][2] = {{0, 1}, {0, 2}};
    uint32_t x;
    largest_tasks(f, 1, 0, 52);
    for (x = 0; x < 51; x++)
        put_pattern(f, x / 2, 45 + x % 2, 8, pair);
    put_pattern(f, 45, 60, 2, other);
    largest_slots(f);
}

/* Edition 2: 48 patterns of 8 pairs and, from task 45 back to a later job of a task that it waits for, 12 of 2 pairs, 10 links each; one of 2 pairs, 8 links
   each; and one link too many where it is asked for. 217 of the 4,096 links lead into the next cycle. The tasks of period 150 wake at tick 80, so that their
   last jobs could run on in the next cycle and break such a link. */
static void largest_onward(made *f, int too_many)
{
    static const uint8_t pair[8][2] = {{0, 0}, {0, 3}, {0, 4}, {1, 1}, {1, 5}, {2, 3}, {2, 4}, {2, 7}}, back[2][2] = {{2, 3}, {3, 3}};
    static const uint8_t other[2][2] = {{0, 1}, {4, 3}}, single[1][2] = {{0, 49}};
    uint32_t x;
    largest_tasks(f, 2, 80, too_many ? 62 : 61);
    for (x = 0; x < 48; x++)
        put_pattern(f, x / 2, 45 + x % 2, 8, pair);
    for (x = 0; x < 12; x++)
        put_pattern(f, 45, x, 2, back);
    put_pattern(f, 45, 60, 2, other);
    if (too_many)
        put_pattern(f, 60, 62, 1, single);
    largest_slots(f);
}

/* Any slots for 64 tasks on 8 processors with a cycle of 6,000 ticks, behind a head that is put. */
static void fill(made *f, uint32_t jobs)
{
    uint32_t k;
    f->tasks = f->length;
    for (k = 0; k < 48000; k++)
        f->bytes[f->length++] = (uint8_t)(k % 65);
    f->processors = 8;
    f->cycle = 6000;
    f->count = 64;
    f->jobs = jobs;
}

/* A head of 64 tasks, 64 patterns and 1,024 pairs, most numbers of its tasks of two bytes; with any 48,000 slots behind it. */
static void longest_file(made *f)
{
    uint32_t i, j, k, patterns = 0;
    f->length = 0;
    put(f, 1);
    put(f, 64);
    put(f, 8);
    for (i = 0; i < 64; i++) {
        put(f, i % 2 ? 250 : 240);
        put(f, 130);
        put(f, 140);
        put(f, 200);
    }
    put(f, 64);
    for (i = 0; i < 64 && patterns < 64; i += 2)
        for (j = 1; j < 4; j += 2) {
            put(f, i);
            put(f, j);
            put(f, 16);
            for (k = 0; k < 16; k++) {
                put(f, k);
                put(f, k + 1);
            }
            patterns++;
        }
    fill(f, 1568);
}

/* The longest file that we can make, of 51,783 bytes in either edition; that there is no longer one is argued here and not proved. A number of a pair has two
   bytes only where a task has over 128 jobs until the two come together, in edition 2 over 64, and so a period below 93 and numbers of one byte; the other
   number has one byte then. Here it is task 0, with 1,500 jobs; the others have one each. As many pair counts as can be, 7, have two bytes. The
   pairs that go back to task 0 have the highest numbers of the edition. */
static void longest_of_all(made *f, uint32_t edition)
{
    uint32_t i, k;
    f->length = 0;
    put(f, edition);
    put(f, 64);
    put(f, 8);
    for (i = 0; i < 64; i++) {
        put(f, i ? 6000 : 4);
        put(f, i ? 130 : 1);
        put(f, i ? 140 : 0);
        put(f, i ? 200 : 4);
    }
    put(f, 64);
    for (i = 1; i <= 64; i++) { /* the last goes back from task 1 */
        uint32_t back = i == 64, count = i <= 7 ? 128 : back ? 16 : 2;
        put(f, back ? 1 : 0);
        put(f, back ? 0 : i);
        put(f, count);
        for (k = 0; k < count; k++) {
            put(f, back ? 0 : 1372 + k);
            put(f, back ? edition * 1500 - 16 + k : 0);
        }
    }
    fill(f, 1563);
}

/* A head of 64 tasks with two periods in turn, and no pattern: its file ends there, which the reader refuses after all of the head's work. */
static void periods(made *f, uint32_t a, uint32_t b)
{
    uint32_t i;
    f->length = 0;
    put(f, 1);
    put(f, 64);
    put(f, 8);
    for (i = 0; i < 64; i++) {
        put(f, i % 2 ? a : b);
        put(f, 130);
        put(f, 140);
        put(f, 200);
    }
    put(f, 0);
    f->tasks = f->length;
}

/* An accepted plan whose 64 patterns all go between two periods that come together only after 6,000 ticks: from each of 8 tasks of period 48 to each of 8 of
   period 125, job 0 to job 0. 48 tasks more have period 6,000. The first kind runs at the start of its periods, the second a tick later, or two where the
   first kind runs then, and the third from tick 2 to 7. */
static void far_apart(made *f)
{
    enum { H = 6000, M = 8, N = 64 };
    uint32_t i, k;
    uint8_t *slots;
    f->length = 0;
    put(f, 1);
    put(f, N);
    put(f, M);
    for (i = 0; i < N; i++) {
        put(f, i < 8 ? 48 : i < 16 ? 125 : H);
        put(f, 1);
        put(f, 0);
        put(f, i < 8 ? 48 : i < 16 ? 125 : H);
    }
    put(f, 64);
    for (i = 0; i < 64; i++) {
        static const uint8_t pair[1][2] = {{0, 0}};
        put_pattern(f, i / 8, 8 + i % 8, 1, pair);
    }
    slots = f->bytes + f->length;
    memset(slots, 0, M * H);
    for (i = 0; i < 8; i++) {
        for (k = 0; k < H; k += 48)
            slots[k * M + i] = (uint8_t)(i + 1);
        for (k = 1; k < H; k += 125)
            slots[(k % 48 ? k : k + 1) * M + i] = (uint8_t)(i + 9);
        for (k = 0; k < 6; k++)
            slots[(k + 2) * M + i] = (uint8_t)(17 + k * M + i);
    }
    f->tasks = f->length;
    f->length += M * H;
    f->processors = M;
    f->cycle = H;
    f->count = N;
    f->jobs = 8 * 125 + 8 * 48 + 48;
}

/* A plan with every slot in use: 64 tasks, 8 processors, H 6,000. Processors 0 to 3 run eight tasks of period 240 each in turn, 30 ticks apiece, and
   processors 4 to 7 eight of period 2,000 each, 250 ticks apiece. */
static void full(made *f)
{
    uint32_t i, t, q;
    f->length = 0;
    put(f, 1);
    put(f, 64);
    put(f, 8);
    for (i = 0; i < 64; i++) {
        put(f, i < 32 ? 240 : 2000);
        put(f, i < 32 ? 30 : 250);
        put(f, 0);
        put(f, i < 32 ? 240 : 2000);
    }
    put(f, 0);
    f->tasks = f->length;
    for (t = 0; t < 6000; t++)
        for (q = 0; q < 8; q++)
            f->bytes[f->length++] = (uint8_t)(1 + q * 8 + (q < 4 ? t % 240 / 30 : t % 2000 / 250));
    f->processors = 8;
    f->cycle = 6000;
    f->count = 64;
    f->jobs = 896;
}

/* A plan that grows with n tasks, a multiple of 8, and cycle h, a multiple of 600: the tasks of processors 0 to 3 run in the first half of their period, h/10,
   one after another, and those of processors 4 to 7 in the second half, each after its partner of the first. The last task has period h, and runs once. */
static void growth(made *f, uint32_t n, uint32_t h)
{
    uint32_t t = h / 10, turns = n / 8, c = t / 2 / turns, i, x, q;
    f->length = 0;
    put(f, 1);
    put(f, n);
    put(f, 8);
    for (i = 0; i < n; i++) {
        put(f, i < n - 1 ? t : h);
        put(f, c);
        put(f, 0);
        put(f, i < n - 1 ? t : h);
    }
    put(f, n / 2);
    for (i = 0; i < n; i++)
        if (i % 8 < 4) {
            put(f, i);
            put(f, i + 4);
            put(f, 1);
            put(f, 0);
            put(f, 0);
        }
    f->tasks = f->length;
    for (x = 0; x < h; x++)
        for (q = 0; q < 8; q++) {
            uint32_t past = x % t, half = t / 2, at = past % half / c, v = 1 + at * 8 + q;
            f->bytes[f->length++] = (uint8_t)((past < half) == (q < 4) && at < turns && (v < n || x < t) ? v : 0);
        }
    f->processors = 8;
    f->cycle = h;
    f->count = n;
    f->jobs = 10 * (n - 1) + 1;
}
#endif
