/* Random plan files: sets with plans that are mostly accepted, to be damaged by the caller. */
#ifndef MAKE_H
#define MAKE_H
#include <stdint.h>
#include <string.h>

typedef struct {
    uint8_t bytes[60000];
    size_t length, tasks; /* the whole file, and how much of it is before the first slot */
    uint32_t processors, cycle, count, jobs;
    uint32_t onward; /* how many pairs lead into the next p ticks, which only edition 2 has */
} made;

static uint64_t seed;

static inline uint64_t any(void)
{
    uint64_t z = seed += 0x9e3779b97f4a7c15u;
    z = (z ^ z >> 30) * 0xbf58476d1ce4e5b9u;
    z = (z ^ z >> 27) * 0x94d049bb133111ebu;
    return z ^ z >> 31;
}

static inline uint32_t below(uint32_t n) { return n ? (uint32_t)(any() % n) : 0; }

static inline void put(made *f, uint32_t x)
{
    while (x >= 128) {
        f->bytes[f->length++] = (uint8_t)(x % 128 + 128);
        x /= 128;
    }
    f->bytes[f->length++] = (uint8_t)x;
}

static inline uint32_t gcd_of(uint32_t a, uint32_t b) { return b ? gcd_of(b, a % b) : a; }

typedef struct {
    uint32_t t, c, o, d;
    uint32_t *first, *last; /* of each job's ticks in one cycle */
} made_task;

/* The pairs of a set: those that its plan keeps, any, or those that it breaks in the link into the next cycle and in no other, with a few that it keeps. */
enum { KEPT, ANY, BROKEN_ONWARD };

/* The lowest link of a pair that the plan breaks, or how many there are. A job past the cycle of h ticks runs as the one a cycle earlier, h later. */
static uint32_t lowest_broken(const made_task *from, const made_task *to, uint32_t a, uint32_t b, uint32_t p, uint32_t h)
{
    uint32_t k, per = h / to->t;
    for (k = 0; k < h / p; k++) {
        uint32_t job = b + k * (p / to->t), begins = job < per ? to->first[job] : to->first[job - per] + h;
        if (from->last[a + k * (p / from->t)] >= begins)
            break;
    }
    return k;
}

/* Whether a pair is of the kind, and chance takes it: such as break onward are rare, and are all taken. */
static int takes(const made_task *from, const made_task *to, uint32_t a, uint32_t b, uint32_t p, uint32_t h, int which)
{
    uint32_t k;
    if (which != BROKEN_ONWARD && below(3))
        return 0;
    if (which == ANY)
        return 1;
    k = lowest_broken(from, to, a, b, p, h);
    if (k == h / p)
        return which == KEPT || below(12) == 0;
    return which == BROKEN_ONWARD && b + k * (p / to->t) >= h / to->t;
}

/* A set of at most `most` tasks over a cycle that divides `top`, its plan laid out job by job in the first free ticks of each window, and pairs of the kind
   that is asked for. It is of edition 2 where that kind needs it, else of either. */
static void make(made *f, uint32_t top, uint32_t most, uint32_t processors, uint32_t most_pairs, int which)
{
    static uint8_t slots[8 * 6000];
    static uint32_t first[2048], last[2048];
    static made_task task[64];
    uint32_t edition = which == BROKEN_ONWARD || below(3) == 0 ? 2 : 1;
    uint32_t n = 1 + below(most), m = processors ? processors : 1 + below(8), h = 1, jobs = 0, i, j, k, pairs = 0, patterns = 0, at, links = 0;
    size_t count_at;
    for (i = 0; i < n; i++) {
        made_task *t = &task[i];
        do
            t->t = 1 + below(top);
        while (top % t->t || (t->t < top / 64 && below(4)));
        t->c = 1 + below(below(3) ? 1 + t->t / 4 : t->t);
        if (t->c > t->t)
            t->c = t->t;
        t->d = below(2) ? t->t : t->c + below(t->t - t->c + 1);
        t->o = below(2) ? 0 : which != BROKEN_ONWARD && below(2) ? below(t->t) : t->t - 1 - below(t->c); /* with the last a job often ends past the cycle */
        h = h / gcd_of(h, t->t) * t->t;
    }
    memset(slots, 0, (size_t)m * h);
    for (i = 0; i < n; i++) {
        made_task *t = &task[i];
        uint32_t per = h / t->t;
        if (jobs + per > 2048) {
            n = i;
            break;
        }
        t->first = first + jobs;
        t->last = last + jobs;
        jobs += per;
        for (k = 0; k < per; k++) {
            uint32_t got = 0, x, q;
            for (x = 0; x < t->d && got < t->c; x++) {
                uint32_t time = t->o + k * t->t + x, tick = time % h;
                for (q = 0; q < m && slots[tick * m + q]; q++)
                    ;
                if (q == m || (below(6) == 0 && t->d - x > t->c - got))
                    continue;
                slots[tick * m + q] = (uint8_t)(i + 1);
                if (!got++)
                    t->first[k] = time;
                t->last[k] = time;
            }
            if (got < t->c && got) /* the task wanted more than was free: it asks for less */
                t->c = got, k = per;
            else if (!got)
                t->first[k] = t->last[k] = 0;
        }
    }
    if (!n)
        n = 1, task[0].first = first, task[0].last = last;
    for (i = 0, h = 1; i < n; i++)
        h = h / gcd_of(h, task[i].t) * task[i].t;
    f->length = 0;
    f->onward = 0;
    put(f, edition);
    put(f, n);
    put(f, m);
    for (i = 0; i < n; i++) {
        put(f, task[i].t);
        put(f, task[i].c);
        put(f, task[i].o);
        put(f, task[i].d < task[i].c ? task[i].c : task[i].d);
    }
    count_at = f->length;
    put(f, 0);
    for (i = 0; i < n && patterns < 64; i++)
        for (j = 0; j < n && patterns < 64; j++) {
            uint32_t p = task[i].t / gcd_of(task[i].t, task[j].t) * task[j].t, a, b, found = 0;
            static uint32_t xs[1024], ys[1024];
            if (i == j || p > h || below(n) > 2 || pairs >= most_pairs)
                continue;
            for (a = 0; a < p / task[i].t; a++)
                for (b = 0; b < edition * (p / task[j].t); b++) {
                    if (pairs + found >= most_pairs || links + (found + 1) * (h / p) > 4096 || !takes(&task[i], &task[j], a, b, p, h, which))
                        continue;
                    xs[found] = a, ys[found] = b, found++;
                    f->onward += b >= p / task[j].t;
                }
            if (!found)
                continue;
            put(f, i);
            put(f, j);
            put(f, found);
            for (a = 0; a < found; a++) {
                put(f, xs[a]);
                put(f, ys[a]);
            }
            pairs += found;
            links += found * (h / p);
            patterns++;
        }
    f->bytes[count_at] = (uint8_t)patterns;
    f->tasks = f->length;
    for (at = 0; at < m * h; at++)
        f->bytes[f->length++] = slots[at] <= n ? slots[at] : 0;
    f->processors = m;
    f->cycle = h;
    f->count = n;
    f->jobs = jobs;
}
#endif
