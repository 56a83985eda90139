/* Random cases: the archive against the plain C of bench/, on files that are valid, nearly valid and damaged, and on any lengths, states and reports. Every
   buffer is lent under watch (lend.h): nothing outside is touched, what is lent for reading stays, and a refusal or a question for evidence changes nothing.
   random [CASES [SEED]]         a case is one call with its evidence */
#define ASKED() watch("a question for evidence", 1)
static void watch(const char *call, int refused);
#include "calls.h"
#include "lend.h"
#include "make.h"

enum { READ, WRITE, SCREEN, ADJUST, JUDGE, START, STEP, KINDS };
static const char *names[KINDS] = {"read", "write", "screen", "adjust", "judge", "start", "step"};
/* The numbers that each call can answer, so that one that no case met shows. */
static const uint8_t possible[KINDS][12] = {{0, 1, 2, 3, 4, 5, 6, 7, 8, 9, 255}, {0, 10, 11, 12, 18, 255}, {0, 10, 13, 14, 15, 255}, {0, 10, 11, 13, 255},
                                            {0, 10, 11, 12, 20, 21, 22, 23, 255}, {0, 10, 11, 12, 20, 21, 22, 23, 255}, {0, 10, 11, 12, 30, 31, 255}};
static unsigned long cases, wrong, met[KINDS][64];
static uint64_t began; /* the seed with which this round began: `random 1 SEED` repeats it */

static void trouble(const char *call, const char *what)
{
    if (wrong++ < 20)
        printf("case %lu, seed %llu: %s %s\n", cases, (unsigned long long)began, call, what);
}

static void print_answer(const char *who, uint32_t number, const uint32_t *evidence, int n)
{
    printf(", %s %u", who, number);
    while (n--)
        printf(" %u", *evidence++);
}

static void compare(int kind, answer a, plain_answer b)
{
    cases++;
    met[kind][b.number & 63]++;
    watch(names[kind], a.number != 0);
    if (!agrees(a, b) && wrong++ < 20) {
        printf("case %lu, seed %llu, %s", cases, (unsigned long long)began, names[kind]);
        print_answer("archive", a.number, a.evidence, ASKED_FOR);
        print_answer("plain C", b.number, b.evidence, PLAIN_EVIDENCE);
        printf("\n");
    }
}

/* Where the ticks of a job with a wrong count fell. */
enum { NONE, ONE, TOO_FEW, TOO_MANY, FIRST_PAST, LAST_PAST, FALLS };
static const char *falls[FALLS] = {"no tick", "one tick", "too few", "too many", "the first past H", "the last past H"};
static unsigned long fell[FALLS], miscounts;

static void tally_ticks(const plain_set *s, const uint32_t *evidence)
{
    uint32_t ticks = evidence[2], asked = s->running[evidence[0]];
    miscounts++;
    fell[NONE] += ticks == 0;
    fell[ONE] += ticks == 1;
    fell[TOO_FEW] += ticks < asked;
    fell[TOO_MANY] += ticks > asked;
    fell[FIRST_PAST] += evidence[3] >= s->cycle;
    fell[LAST_PAST] += evidence[4] >= s->cycle;
}

/* Accepted plans that have a link into the next cycle, and refused ones of which the broken link is one. */
static unsigned long onward_kept, onward_broken;

static void tally_links(const plain_set *s, plain_answer b)
{
    uint32_t i, j, at = 0, found = 0;
    for (i = 0; i < s->patterns; i++) {
        uint32_t from = s->period[s->from[i]], to = s->period[s->to[i]], turn = from / gcd_of(from, to), last = s->cycle / (turn * to) - 1;
        for (j = 0; j < s->pairs[i]; j++, at++)
            if (s->second[at] >= turn) /* then link `last` of the pair leads into the next cycle, and no other */
                found |= !b.number || (b.evidence[0] == i && b.evidence[1] == j && b.evidence[2] == last);
    }
    if (found)
        ++*(b.number ? &onward_broken : &onward_kept);
}

/* Where a plan was judged, tasks and plan are the parts of a file, from which the set is read. */
static void tally(plain_answer b, const uint8_t *tasks, size_t tasks_len, const uint8_t *plan, size_t plan_len)
{
    static uint8_t file[60008];
    static plain_set s;
    if (b.number != 0 && b.number != 22 && b.number != 23)
        return;
    memcpy(file, tasks, tasks_len);
    memcpy(file + tasks_len, plan, plan_len);
    if (plain_read(file, tasks_len + plan_len, &s).number)
        return;
    if (b.number == 22)
        tally_ticks(&s, b.evidence);
    else
        tally_links(&s, b);
}

static void equal(const char *what, const void *a, const void *b, size_t n)
{
    if (memcmp(a, b, n))
        trouble(what, "left other bytes than plain C");
}

static int coin(void) { return (int)below(2); }

/* Mostly n; else 0, one less, one more, or anything up to that. */
static size_t near(size_t n)
{
    if (below(12))
        return n;
    switch (below(4)) {
    case 0:
        return 0;
    case 1:
        return n ? n - 1 : 0;
    case 2:
        return n + 1;
    default:
        return below((uint32_t)n + 2);
    }
}

/* Changes, cuts or lengthens some bytes; there is room for four more. */
static size_t damage(uint8_t *bytes, size_t n)
{
    uint32_t k = 1 + below(3);
    while (k--)
        switch (below(8)) {
        case 0:
            n = below((uint32_t)n);
            break;
        case 1:
            bytes[n++] = (uint8_t)any();
            break;
        case 2:
            if (n)
                bytes[below((uint32_t)n)] = (uint8_t)any();
            break;
        default:
            if (n)
                bytes[below((uint32_t)(coin() && n > 40 ? 40 : n))] = (uint8_t)below(coin() ? 4 : 16);
        }
    return n;
}

static unsigned long read_as[3]; /* how often a file of each edition was read */

static answer try_read(const uint8_t *file, size_t n)
{
    static plain_set s;
    plain_answer b = plain_read(file, n, &s);
    answer a;
    lent_count = 0;
    a = call_read(lend(file, n, coin(), 0), n);
    compare(READ, a, b);
    if (!b.number)
        read_as[s.edition]++;
    return a;
}

static answer try_screen(const uint8_t *tasks, size_t tasks_len)
{
    answer a;
    lent_count = 0;
    a = call_screen(lend(tasks, tasks_len, coin(), 0), tasks_len);
    compare(SCREEN, a, plain_screen(tasks, tasks_len));
    return a;
}

static void try_judge(const uint8_t *tasks, size_t tasks_len, const uint8_t *plan, size_t plan_len)
{
    const uint8_t *t, *p;
    plain_answer b = plain_judge(tasks, tasks_len, plan, plan_len);
    lent_count = 0;
    t = lend(tasks, tasks_len, coin(), 0);
    p = lend(plan, plan_len, coin(), 0);
    compare(JUDGE, call_judge(t, tasks_len, p, plan_len), b);
    tally(b, tasks, tasks_len, plan, plan_len);
}

static void any_bytes(void *to, size_t n)
{
    uint8_t *bytes = to;
    while (n--)
        *bytes++ = (uint8_t)any();
}

static void try_adjust(const uint8_t *tasks, size_t tasks_len, uint32_t jobs)
{
    static int32_t r2[2064], d2[2064];
    size_t nr = near(jobs), nd = near(jobs);
    const uint8_t *t;
    int32_t *r1, *d1;
    any_bytes(r2, 4 * nr);
    any_bytes(d2, 4 * nd);
    lent_count = 0;
    t = lend(tasks, tasks_len, coin(), 0);
    r1 = (int32_t *)(void *)lend(r2, 4 * nr, coin(), 1);
    d1 = (int32_t *)(void *)lend(d2, 4 * nd, coin(), 1);
    compare(ADJUST, call_adjust(t, tasks_len, r1, nr, d1, nd), plain_adjust(tasks, tasks_len, r2, nr, d2, nd));
    equal("adjust", r1, r2, 4 * nr);
    equal("adjust", d1, d2, 4 * nd);
}

/* A word with bits below the task count only, or by chance one higher. */
static uint64_t marks(const made *f, uint32_t rarely)
{
    uint32_t n = f->count + (below(rarely) == 0);
    return any() & (n >= 64 ? ~(uint64_t)0 : ((uint64_t)1 << n) - 1);
}

/* A state that no run need reach, or that is not possible. */
static void any_state(const made *f, uint8_t *s)
{
    uint32_t tick = below(f->cycle + 2), k;
    uint64_t done = marks(f, 12), ran = marks(f, 12);
    if (below(12) == 0) {
        any_bytes(s, FLUTE_STATE_BYTES);
        return;
    }
    for (k = 0; k < 4; k++)
        s[k] = (uint8_t)(tick >> 8 * k);
    s[4] = (uint8_t)below(below(8) ? 2 : 4);
    for (k = 0; k < 8; k++) {
        s[5 + k] = (uint8_t)(done >> 8 * k);
        s[13 + k] = (uint8_t)(ran >> 8 * k);
    }
    if (below(12) == 0)
        s[below(FLUTE_STATE_BYTES)] ^= (uint8_t)(1u << below(8));
}

static int try_start(const uint8_t *tasks, size_t tasks_len, const uint8_t *plan, size_t plan_len, uint8_t *s2, size_t ns)
{
    const uint8_t *t, *p;
    uint8_t *s1;
    answer a;
    lent_count = 0;
    t = lend(tasks, tasks_len, coin(), 0);
    p = lend(plan, plan_len, coin(), 0);
    s1 = lend(s2, ns, coin(), 1);
    a = call_start(t, tasks_len, p, plan_len, s1, ns);
    compare(START, a, plain_start(tasks, tasks_len, plan, plan_len, s2, ns));
    equal("start", s1, s2, ns);
    return a.number == 0;
}

static void try_step(const uint8_t *tasks, size_t tasks_len, const uint8_t *plan, size_t plan_len, const made *f, uint8_t *s2, size_t ns, size_t no)
{
    uint64_t report = below(3) ? marks(f, 30) : 0;
    const uint8_t *t, *p;
    uint8_t *s1, *o1, o2[24];
    any_bytes(o2, sizeof o2);
    lent_count = 0;
    t = lend(tasks, tasks_len, coin(), 0);
    p = lend(plan, plan_len, coin(), 0);
    s1 = lend(s2, ns, coin(), 1);
    o1 = lend(o2, no, coin(), 1);
    compare(STEP, call_step(t, tasks_len, p, plan_len, report, s1, ns, o1, no), plain_step(tasks, tasks_len, plan, plan_len, report, s2, ns, o2, no));
    equal("step (state)", s1, s2, ns);
    equal("step (output)", o1, o2, no);
}

/* A start, and a run of steps from it or from another state. */
static void try_run(const uint8_t *tasks, size_t tasks_len, const uint8_t *plan, size_t plan_len, const made *f)
{
    uint8_t s2[24];
    size_t ns = near(FLUTE_STATE_BYTES), no = near(f->processors);
    uint32_t steps = 1 + below(ns == FLUTE_STATE_BYTES && no == f->processors ? 16 : 2);
    any_bytes(s2, sizeof s2);
    if (!try_start(tasks, tasks_len, plan, plan_len, s2, ns) || below(4) == 0)
        any_state(f, s2);
    while (steps--)
        try_step(tasks, tasks_len, plan, plan_len, f, s2, ns, no);
}

/* A write into a buffer of some length. What is written is the bytes of tasks and plan, since a head has no number that is not in its shortest form, and it is
   read back. */
static void try_write_into(const uint8_t *tasks, size_t tasks_len, const uint8_t *plan, size_t plan_len, size_t no)
{
    static uint8_t o2[ROOM];
    const uint8_t *t, *p;
    uint8_t *o1;
    size_t n = tasks_len + plan_len;
    answer a;
    any_bytes(o2, no);
    lent_count = 0;
    t = lend(tasks, tasks_len, coin(), 0);
    p = lend(plan, plan_len, coin(), 0);
    o1 = lend(o2, no, coin(), 1);
    a = call_write(t, tasks_len, p, plan_len, o1, no);
    compare(WRITE, a, plain_write(tasks, tasks_len, plan, plan_len, o2, no));
    equal("write", o1, o2, no);
    if (!asked_again(a, t, tasks_len, p, plan_len, o1, no))
        trouble("write", "shows other evidence after the call");
    if (a.number)
        return;
    if (a.evidence[0] != n || no < n || memcmp(o1, tasks, tasks_len) || memcmp(o1 + tasks_len, plan, plan_len)) {
        trouble("write", "wrote another file than that of tasks and plan");
        return;
    }
    a = try_read(o1, n);
    if (a.number || a.evidence[0] != tasks_len)
        trouble("read", "does not give back what was written");
}

/* Buffers that are a byte too short, exact and longer, and now and then much too short. */
static void try_write(const uint8_t *tasks, size_t tasks_len, const uint8_t *plan, size_t plan_len)
{
    size_t n = tasks_len + plan_len;
    try_write_into(tasks, tasks_len, plan, plan_len, n ? n - 1 : 0);
    try_write_into(tasks, tasks_len, plan, plan_len, n);
    try_write_into(tasks, tasks_len, plan, plan_len, n + 1 + below(100));
    if (below(4) == 0)
        try_write_into(tasks, tasks_len, plan, plan_len, below((uint32_t)n));
}

/* A set at the limits of jobs, cycle and links: n tasks of one period in turn and one that runs once, 256 jobs of each in a cycle, and links of the first
   jobs of two tasks, which in edition 2 may lead on to the second job, and do so from a task to one before it. 8 tasks are a job too many, a period of 24 makes
   the cycle too long, and 17 patterns are 256 links too many. */
static void make_crowded(made *f)
{
    uint32_t n = 6 + below(3), t = below(6) ? 8 + below(3) : 24, patterns = 14 + below(5), edition = 1 + below(2), i, j, x;
    size_t count_at;
    f->length = 0;
    f->onward = 0;
    put(f, edition);
    put(f, n + 1);
    put(f, 1);
    for (i = 0; i <= n; i++) {
        put(f, i < n ? t : 256 * t);
        put(f, 1);
        put(f, 0);
        put(f, i < n ? t : 256 * t);
    }
    count_at = f->length;
    put(f, 0);
    for (i = 0, x = 0; i < n; i++)
        for (j = edition == 1 ? i + 1 : 0; j < n && x < patterns; j++) {
            uint32_t onward = j < i || (edition == 2 && coin());
            if (j == i)
                continue;
            put(f, i);
            put(f, j);
            put(f, 1);
            put(f, 0);
            put(f, onward);
            f->onward += onward;
            x++;
        }
    f->bytes[count_at] = (uint8_t)x;
    f->tasks = f->length;
    for (x = 0; x < 256 * t; x++)
        f->bytes[f->length++] = (uint8_t)(x % t < n ? x % t + 1 : x == t - 1 ? n + 1 : 0);
    f->processors = 1;
    f->cycle = 256 * t;
    f->count = n + 1;
    f->jobs = 256 * n + 1;
}

/* The place of a slot in use, or of any slot where there is none. */
static uint32_t used_slot(const uint8_t *plan, uint32_t n)
{
    uint32_t at = below(n), k;
    for (k = 0; k < n && !plan[at]; k++)
        at = (at + 1) % n;
    return at;
}

/* A file that is read, under any edition up to 3. Edition 2 takes whatever edition 1 does, edition 1 no pair that leads onward, and there is no other. */
static void try_edition(const made *f, uint8_t edition)
{
    static uint8_t file[60008];
    static plain_set s;
    const uint8_t *plan = file + f->tasks;
    size_t plan_len = f->length - f->tasks;
    uint32_t right = edition == 0 || edition == 3 ? 3 : edition == 1 && f->onward ? 6 : 0;
    if (plain_read(f->bytes, f->length, &s).number)
        return;
    memcpy(file, f->bytes, f->length);
    file[0] = edition;
    if (try_read(file, f->length).number != right)
        trouble("read", "takes an edition for another");
    if ((try_screen(file, f->tasks).number == 10) != (right != 0))
        trouble("screen", "takes an edition for another");
    try_judge(file, f->tasks, plan, plan_len);
    try_adjust(file, f->tasks, f->jobs);
    try_write_into(file, f->tasks, plan, plan_len, f->length);
    try_run(file, f->tasks, plan, plan_len, f);
}

static void try_all(const made *f)
{
    static uint8_t file[60008], tasks[60008], plan[48008];
    size_t file_len = f->length, tasks_len = f->tasks, plan_len = f->length - f->tasks;
    memcpy(file, f->bytes, file_len);
    memcpy(tasks, f->bytes, tasks_len);
    memcpy(plan, f->bytes + f->tasks, plan_len);
    tasks[tasks_len] = plan[plan_len] = file[file_len] = (uint8_t)below(3); /* for a length that is one too long */
    switch (below(10)) { /* half of all stay as they were made */
    case 0:
        tasks_len = damage(tasks, tasks_len);
        break;
    case 1:
        plan_len = damage(plan, plan_len);
        break;
    case 2:
        plan[below((uint32_t)plan_len)] = (uint8_t)below(f->count + 2);
        break;
    case 3:
        tasks_len = near(tasks_len);
        plan_len = near(plan_len);
        break;
    case 4: /* a job loses a tick */
        plan[used_slot(plan, (uint32_t)plan_len)] = 0;
        break;
    }
    file_len = below(3) ? damage(file, file_len) : near(file_len);
    try_read(file, file_len);
    try_write(tasks, tasks_len, plan, plan_len);
    try_screen(tasks, tasks_len);
    try_judge(tasks, tasks_len, plan, plan_len);
    try_adjust(tasks, tasks_len, f->jobs);
    try_run(tasks, tasks_len, plan, plan_len, f);
}

/* How often each number was met, a line a call, of the judge's 22 how often each kind of job, and how often each edition and links into the next cycle. */
static void tell(void)
{
    int k, n;
    for (k = 0; k < KINDS; k++) {
        unsigned long all = 0;
        for (n = 0; n < 64; n++)
            all += met[k][n];
        if (!all)
            continue;
        printf("%s, %lu calls:", names[k], all);
        for (n = 0; possible[k][n] != 255; n++)
            printf("%s %d in %lu", n ? "," : "", possible[k][n], met[k][possible[k][n]]);
        printf("\n");
    }
    printf("wrong counts of the judge, %lu calls:", miscounts);
    for (k = 0; k < FALLS; k++)
        printf("%s %s in %lu", k ? "," : "", falls[k], fell[k]);
    printf("\nfiles that were read: %lu of edition 1, %lu of edition 2\n", read_as[1], read_as[2]);
    printf("plans with a link into the next cycle: accepted %lu, refused for such a link %lu\n", onward_kept, onward_broken);
}

int main(int argc, char **argv)
{
    static const uint32_t tops[] = {1, 2, 4, 6, 12, 24, 30, 60, 120, 360};
    static const int choices[] = {KEPT, KEPT, BROKEN_ONWARD, ANY};
    static made f;
    unsigned long most = argc > 1 ? strtoul(argv[1], NULL, 0) : 50000;
    seed = argc > 2 ? strtoull(argv[2], NULL, 0) : 20261115;
    printf("seed %llu\n", (unsigned long long)seed);
    lend_open();
    while (cases < most) {
        began = seed;
        if (below(100) == 0)
            make_crowded(&f);
        else
            make(&f, tops[below(10)], 1 + below(below(8) ? 6 : 64), 0, below(4) ? 1 + below(12) : 0, choices[below(4)]);
        try_all(&f);
        if (below(4) == 0)
            try_edition(&f, (uint8_t)below(4));
    }
    tell();
    printf("%lu passed, %lu failed\n", cases - (wrong < cases ? wrong : cases), wrong);
    return wrong != 0;
}
