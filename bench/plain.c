#include "plain.h"
#include <string.h>

/* ---- answers */
static plain_answer say(uint32_t number, uint32_t a, uint32_t b, uint32_t c)
{
    plain_answer r = {number, {a, b, c}};
    return r;
}

/* 22: a job, how many ticks it gets, and the first and the last of them. */
static plain_answer say_ticks(uint32_t task, uint32_t job, uint32_t ticks, uint32_t first, uint32_t last)
{
    plain_answer r = {22, {task, job, ticks, first, last}};
    return r;
}

/* ---- numbers of a file */
typedef struct {
    const uint8_t *file;
    size_t length, at;
    plain_answer refused; /* number 0: nothing refused yet */
} cursor;

/* The number at the cursor, from low up to, but not with, limit; else the fault at the number's first byte. */
static uint32_t take(cursor *c, uint32_t low, uint32_t limit, uint32_t fault)
{
    uint32_t value = 0;
    size_t start = c->at, k;
    if (c->refused.number)
        return 0;
    for (k = 0; k < 3; k++) {
        uint8_t byte;
        if (start + k >= c->length) {
            c->refused = say(1, (uint32_t)c->length, 0, 0);
            return 0;
        }
        byte = c->file[start + k];
        if ((k > 0 && byte == 0) || (k == 2 && byte >= 128)) {
            c->refused = say(2, (uint32_t)start, 0, 0);
            return 0;
        }
        value |= (uint32_t)(byte & 127) << (7 * k);
        if (byte < 128)
            break;
    }
    if (value < low || value >= limit) {
        c->refused = say(fault, fault == 3 ? 0 : (uint32_t)start, 0, 0);
        return 0;
    }
    c->at = start + k + 1;
    return value;
}

static uint32_t gcd(uint32_t a, uint32_t b)
{
    while (b) {
        uint32_t t = a % b;
        a = b;
        b = t;
    }
    return a;
}

static uint32_t lcm(uint32_t a, uint32_t b) { return a / gcd(a, b) * b; }

/* Edition to last pair. */
static void take_head(cursor *c, plain_set *s)
{
    uint32_t i, j, h = 1, used = 0, low_from = 0, low_to = 0;
    uint64_t links = 0;
    s->edition = take(c, 1, 3, 3);
    s->tasks = take(c, 1, 65, 4);
    s->processors = take(c, 1, 9, 4);
    for (i = 0; i < s->tasks && !c->refused.number; i++) {
        s->period[i] = take(c, 1, 6001, 4);
        s->running[i] = take(c, 1, s->period[i] + 1, 4);
        s->offset[i] = take(c, 0, s->period[i], 4);
        s->deadline[i] = take(c, s->running[i], s->period[i] + 1, 4);
    }
    if (c->refused.number)
        return;
    for (i = 0; i < s->tasks && h <= 6000; i++)
        h = lcm(h, s->period[i]);
    s->cycle = h;
    s->jobs = 0;
    for (i = 0; h <= 6000 && i < s->tasks; i++)
        s->jobs += h / s->period[i];
    if (h > 6000 || s->jobs > 2048) {
        c->refused = say(5, (uint32_t)c->at, 0, 0);
        return;
    }
    s->patterns = take(c, 0, 65, 4);
    for (i = 0; i < s->patterns && !c->refused.number; i++) {
        uint32_t p, limit_a, limit_b, low_a = 0, low_b = 0;
        size_t place;
        s->from[i] = take(c, low_from, s->tasks, 6);
        place = c->at;
        s->to[i] = take(c, s->from[i] == low_from ? low_to : 0, s->tasks, 6);
        if (!c->refused.number && s->from[i] == s->to[i])
            c->refused = say(6, (uint32_t)place, 0, 0);
        place = c->at;
        s->pairs[i] = take(c, 1, 2097152, 6);
        if (!c->refused.number && used + s->pairs[i] > 1024)
            c->refused = say(4, (uint32_t)place, 0, 0);
        if (c->refused.number)
            return;
        p = lcm(s->period[s->from[i]], s->period[s->to[i]]);
        limit_a = p / s->period[s->from[i]];
        limit_b = p / s->period[s->to[i]] * (s->edition == 1 ? 1 : 2); /* in edition 2 a link may lead into the next p ticks */
        for (j = 0; j < s->pairs[i] && !c->refused.number; j++) {
            uint32_t a = take(c, low_a, limit_a, 6), b = take(c, a == low_a ? low_b : 0, limit_b, 6);
            s->first[used + j] = (uint16_t)a;
            s->second[used + j] = (uint16_t)b;
            low_a = a;
            low_b = b + 1;
        }
        used += s->pairs[i];
        links += (uint64_t)s->pairs[i] * (h / p);
        low_from = s->from[i];
        low_to = s->to[i] + 1;
    }
    if (!c->refused.number && links > 4096)
        c->refused = say(9, (uint32_t)c->at, 0, 0);
}

plain_answer plain_read(const uint8_t *file, size_t length, plain_set *set)
{
    cursor c = {file, length, 0, {0, {0}}};
    size_t first, k, slots;
    take_head(&c, set);
    if (c.refused.number)
        return c.refused;
    first = c.at;
    slots = (size_t)set->processors * set->cycle;
    for (k = 0; k < slots; k++) {
        if (first + k >= length)
            return say(1, (uint32_t)length, 0, 0);
        if (file[first + k] > set->tasks)
            return say(7, (uint32_t)(first + k), 0, 0);
    }
    if (first + slots < length)
        return say(8, (uint32_t)(first + slots), 0, 0);
    return say(0, (uint32_t)first, 0, 0);
}

/* Tasks and m as the C side passes them: 1 where the bytes are a head and nothing more. */
static int head_of(const uint8_t *tasks, size_t length, plain_set *s)
{
    cursor c = {tasks, length, 0, {0, {0}}};
    take_head(&c, s);
    return !c.refused.number && c.at == length;
}

/* ---- the writer */
static size_t size_of(uint32_t x) { return x < 128 ? 1 : x < 16384 ? 2 : 3; }

static size_t head_size(const plain_set *s)
{
    size_t n = 4 + 2 * s->patterns; /* edition, task count, m, pattern count and the tasks of a pattern have a byte each */
    uint32_t i, pairs = 0;
    for (i = 0; i < s->tasks; i++)
        n += size_of(s->period[i]) + size_of(s->running[i]) + size_of(s->offset[i]) + size_of(s->deadline[i]);
    for (i = 0; i < s->patterns; i++) {
        n += size_of(s->pairs[i]);
        pairs += s->pairs[i];
    }
    for (i = 0; i < pairs; i++)
        n += size_of(s->first[i]) + size_of(s->second[i]);
    return n;
}

/* A number in its shortest form; the place behind it. */
static uint8_t *put(uint8_t *to, uint32_t x)
{
    for (; x >= 128; x >>= 7)
        *to++ = (uint8_t)(x | 128);
    *to++ = (uint8_t)x;
    return to;
}

static uint8_t *put_head(uint8_t *to, const plain_set *s)
{
    uint32_t i, j, at = 0;
    to = put(put(put(to, s->edition), s->tasks), s->processors);
    for (i = 0; i < s->tasks; i++)
        to = put(put(put(put(to, s->period[i]), s->running[i]), s->offset[i]), s->deadline[i]);
    to = put(to, s->patterns);
    for (i = 0; i < s->patterns; i++) {
        to = put(put(put(to, s->from[i]), s->to[i]), s->pairs[i]);
        for (j = 0; j < s->pairs[i]; j++, at++)
            to = put(put(to, s->first[at]), s->second[at]);
    }
    return to;
}

plain_answer plain_write(const uint8_t *tasks, size_t tasks_len, const uint8_t *plan, size_t plan_len, uint8_t *out, size_t out_len)
{
    static plain_set s;
    size_t length, e;
    if (!head_of(tasks, tasks_len, &s))
        return say(10, 0, 0, 0);
    if (plan_len != (size_t)s.processors * s.cycle)
        return say(11, 0, 0, 0);
    for (e = 0; e < plan_len; e++)
        if (plan[e] > s.tasks)
            return say(12, (uint32_t)e, 0, 0);
    length = head_size(&s) + plan_len;
    if (out_len < length)
        return say(18, 0, 0, 0);
    memcpy(put_head(out, &s), plan, plan_len);
    return say(0, (uint32_t)length, 0, 0);
}

/* ---- jobs of a cycle and the links between them: a link into the next cycle is none of these */
typedef struct {
    uint32_t jobs, base[65];
    uint16_t task[2048];
    uint32_t links;
    uint16_t start[4096], end[4096];
} network;

static void lay(const plain_set *s, network *g)
{
    uint32_t i, j, k, at = 0;
    g->jobs = 0;
    for (i = 0; i < s->tasks; i++) {
        g->base[i] = g->jobs;
        for (k = 0; k < s->cycle / s->period[i]; k++)
            g->task[g->jobs++] = (uint16_t)i;
    }
    g->base[s->tasks] = g->jobs;
    g->links = 0;
    for (i = 0; i < s->patterns; i++) {
        uint32_t p = lcm(s->period[s->from[i]], s->period[s->to[i]]);
        for (j = 0; j < s->pairs[i]; j++, at++) {
            uint32_t inside = s->cycle / p - (s->second[at] >= p / s->period[s->to[i]]); /* a second number so high takes the last link out of the cycle */
            for (k = 0; k < inside; k++) {
                g->start[g->links] = (uint16_t)(g->base[s->from[i]] + s->first[at] + k * (p / s->period[s->from[i]]));
                g->end[g->links] = (uint16_t)(g->base[s->to[i]] + s->second[at] + k * (p / s->period[s->to[i]]));
                g->links++;
            }
        }
    }
}

/* Which jobs a way of at least one link leads to from x. */
static int on_cycle(const network *g, uint32_t x)
{
    static uint8_t seen[2048];
    uint32_t k;
    int more = 1;
    memset(seen, 0, sizeof seen);
    for (k = 0; k < g->links; k++)
        if (g->start[k] == x)
            seen[g->end[k]] = 1;
    while (more && !seen[x]) {
        more = 0;
        for (k = 0; k < g->links; k++)
            if (seen[g->start[k]] && !seen[g->end[k]])
                seen[g->end[k]] = 1, more = 1;
    }
    return seen[x];
}

/* The lowest job on a cycle, or the number of jobs. A topological order first: without leftovers there is none. */
static uint32_t lowest_on_cycle(const network *g)
{
    static uint16_t degree[2048], queue[2048];
    static uint32_t head[2049], list[4096];
    uint32_t k, x, n = 0, at;
    memset(degree, 0, sizeof degree);
    memset(head, 0, sizeof head);
    for (k = 0; k < g->links; k++)
        degree[g->end[k]]++, head[g->start[k] + 1]++;
    for (x = 0; x < g->jobs; x++)
        head[x + 1] += head[x];
    for (k = g->links; k-- > 0;)
        list[--head[g->start[k] + 1]] = k;
    /* head[x + 1] is now where the links of x begin */
    for (x = 0; x < g->jobs; x++)
        if (!degree[x])
            queue[n++] = (uint16_t)x;
    for (at = 0; at < n; at++) {
        uint32_t begin = head[queue[at] + 1], end = queue[at] + 1u < g->jobs ? head[queue[at] + 2] : g->links;
        for (k = begin; k < end; k++)
            if (--degree[g->end[list[k]]] == 0)
                queue[n++] = g->end[list[k]];
    }
    if (n == g->jobs)
        return g->jobs;
    for (x = 0; x < g->jobs; x++)
        if (degree[x] && on_cycle(g, x))
            return x;
    return g->jobs;
}

/* Adjusted times of a network without a cycle, by rounds until nothing changes. */
static void adjusted(const plain_set *s, const network *g, int32_t *releases, int32_t *deadlines)
{
    uint32_t x, k;
    int more = 1;
    for (x = 0; x < g->jobs; x++) {
        uint32_t i = g->task[x], job = x - g->base[i];
        releases[x] = (int32_t)(s->offset[i] + job * s->period[i]);
        deadlines[x] = releases[x] + (int32_t)s->deadline[i];
    }
    while (more) {
        more = 0;
        for (k = 0; k < g->links; k++) {
            uint32_t a = g->start[k], b = g->end[k];
            int32_t r = releases[a] + (int32_t)s->running[g->task[a]], d = deadlines[b] - (int32_t)s->running[g->task[b]];
            if (releases[b] < r)
                releases[b] = r, more = 1;
            if (deadlines[a] > d)
                deadlines[a] = d, more = 1;
        }
    }
}

plain_answer plain_screen(const uint8_t *tasks, size_t tasks_len)
{
    static plain_set s;
    static network g;
    static int32_t releases[2048], deadlines[2048];
    uint32_t i, x, load = 0;
    if (!head_of(tasks, tasks_len, &s))
        return say(10, 0, 0, 0);
    lay(&s, &g);
    x = lowest_on_cycle(&g);
    if (x < g.jobs)
        return say(13, g.task[x], x - g.base[g.task[x]], 0);
    for (i = 0; i < s.tasks; i++)
        load += s.running[i] * (s.cycle / s.period[i]);
    if (load > s.processors * s.cycle)
        return say(14, load, s.processors * s.cycle, 0);
    adjusted(&s, &g, releases, deadlines);
    for (x = 0; x < g.jobs; x++)
        if (releases[x] + (int32_t)s.running[g.task[x]] > deadlines[x])
            return say(15, g.task[x], x - g.base[g.task[x]], 0);
    return say(0, 0, 0, 0);
}

plain_answer plain_adjust(const uint8_t *tasks, size_t tasks_len, int32_t *releases, size_t releases_len, int32_t *deadlines,
                          size_t deadlines_len)
{
    static plain_set s;
    static network g;
    uint32_t x;
    if (!head_of(tasks, tasks_len, &s))
        return say(10, 0, 0, 0);
    if (releases_len != s.jobs || deadlines_len != s.jobs)
        return say(11, 0, 0, 0);
    lay(&s, &g);
    x = lowest_on_cycle(&g);
    if (x < g.jobs)
        return say(13, g.task[x], x - g.base[g.task[x]], 0);
    adjusted(&s, &g, releases, deadlines);
    return say(0, 0, 0, 0);
}

/* ---- the judge */
static plain_answer judge_set(const plain_set *s, const uint8_t *plan, size_t plan_len)
{
    static uint16_t count[2048], first[2048], last[2048];
    uint32_t m = s->processors, h = s->cycle, base[64], i, k, t, q, r, jobs = 0, pairs = 0;
    size_t e;
    if (plan_len != (size_t)m * h)
        return say(11, 0, 0, 0);
    for (e = 0; e < plan_len; e++)
        if (plan[e] > s->tasks)
            return say(12, (uint32_t)e, 0, 0);
    for (t = 0; t < h; t++)
        for (q = 0; q < m; q++)
            if (plan[t * m + q])
                for (r = q + 1; r < m; r++)
                    if (plan[t * m + q] == plan[t * m + r])
                        return say(20, t, q, r);
    for (i = 0; i < s->tasks; i++) {
        base[i] = jobs;
        jobs += h / s->period[i];
    }
    memset(count, 0, jobs * sizeof *count);
    for (t = 0; t < h; t++)
        for (q = 0; q < m; q++) {
            uint32_t v = plan[t * m + q], past, time;
            if (!v)
                continue;
            i = v - 1;
            time = t >= s->offset[i] ? t : t + h;
            past = time - s->offset[i];
            if (past % s->period[i] >= s->deadline[i])
                return say(21, t, q, 0);
            k = base[i] + past / s->period[i];
            if (!count[k] || time < first[k])
                first[k] = (uint16_t)time;
            if (!count[k] || time > last[k])
                last[k] = (uint16_t)time;
            count[k]++;
        }
    for (i = 0; i < s->tasks; i++)
        for (k = 0; k < h / s->period[i]; k++)
            if (count[base[i] + k] != s->running[i]) {
                uint32_t release = s->offset[i] + k * s->period[i], x = base[i] + k;
                return count[x] ? say_ticks(i, k, count[x], first[x], last[x]) : say_ticks(i, k, 0, release, release);
            }
    for (i = 0; i < s->patterns; i++) {
        uint32_t from = s->from[i], to = s->to[i], p = lcm(s->period[from], s->period[to]), round = h / s->period[to];
        for (q = 0; q < s->pairs[i]; q++, pairs++)
            for (k = 0; k < h / p; k++) {
                uint32_t before = s->first[pairs] + k * (p / s->period[from]), after = s->second[pairs] + k * (p / s->period[to]);
                /* a job past the cycle runs as the one a cycle earlier, h ticks later */
                uint32_t begins = after < round ? first[base[to] + after] : first[base[to] + after - round] + h;
                if (last[base[from] + before] >= begins)
                    return say(23, i, q, k);
            }
    }
    return say(0, 0, 0, 0);
}

plain_answer plain_judge(const uint8_t *tasks, size_t tasks_len, const uint8_t *plan, size_t plan_len)
{
    static plain_set s;
    if (!head_of(tasks, tasks_len, &s))
        return say(10, 0, 0, 0);
    return judge_set(&s, plan, plan_len);
}

/* ---- the dispatcher */
static uint64_t word(const uint8_t *bytes, int n)
{
    uint64_t x = 0;
    while (n-- > 0)
        x = x << 8 | bytes[n];
    return x;
}

static void spell(uint8_t *bytes, int n, uint64_t x)
{
    int k;
    for (k = 0; k < n; k++, x >>= 8)
        bytes[k] = (uint8_t)x;
}

plain_answer plain_start(const uint8_t *tasks, size_t tasks_len, const uint8_t *plan, size_t plan_len, uint8_t *state, size_t state_len)
{
    static plain_set s;
    plain_answer r;
    if (!head_of(tasks, tasks_len, &s))
        return say(10, 0, 0, 0);
    if (plan_len != (size_t)s.processors * s.cycle || state_len != 21)
        return say(11, 0, 0, 0);
    r = judge_set(&s, plan, plan_len);
    if (r.number)
        return r;
    memset(state, 0, 21);
    state[4] = 1;
    return r;
}

plain_answer plain_step(const uint8_t *tasks, size_t tasks_len, const uint8_t *plan, size_t plan_len, uint64_t report, uint8_t *state,
                        size_t state_len, uint8_t *out, size_t out_len)
{
    static plain_set s;
    uint64_t all, done, ran, shown = 0;
    uint32_t tick, i, q, m;
    int sleeping;
    if (!head_of(tasks, tasks_len, &s))
        return say(10, 0, 0, 0);
    m = s.processors;
    if (plan_len != (size_t)m * s.cycle || out_len != m || state_len != 21)
        return say(11, 0, 0, 0);
    all = s.tasks == 64 ? ~(uint64_t)0 : ((uint64_t)1 << s.tasks) - 1;
    tick = (uint32_t)word(state, 4);
    done = word(state + 5, 8);
    ran = word(state + 13, 8);
    sleeping = state[4] == 1;
    if (state[4] > 1 || tick >= s.cycle || (done & ~all) || (ran & ~all))
        return say(30, 0, 0, 0);
    if (report & ~all)
        return say(31, 0, 0, 0);
    for (q = 0; q < m; q++)
        if (plan[tick * m + q] > s.tasks)
            return say(12, tick * m + q, 0, 0);
    done |= report & ran;
    for (i = 0; i < s.tasks; i++)
        if ((tick + s.cycle - s.offset[i]) % s.period[i] == 0)
            done &= ~((uint64_t)1 << i);
    for (q = 0; q < m; q++) {
        uint8_t v = plan[tick * m + q];
        if (v && ((sleeping && tick < s.offset[v - 1]) || (done >> (v - 1) & 1)))
            v = 0;
        out[q] = v;
        if (v)
            shown |= (uint64_t)1 << (v - 1);
    }
    if (tick + 1 < s.cycle) {
        spell(state, 4, tick + 1);
    } else {
        spell(state, 4, 0);
        state[4] = 0;
    }
    spell(state + 5, 8, done);
    spell(state + 13, 8, shown);
    return say(0, 0, 0, 0);
}
