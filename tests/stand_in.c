/* The archive's calls answered by the plain C of bench/: linked in the archive's place, it runs the very same programs on plain C. */
#include "../bench/plain.h"
#include "../include/flute.h"
#include <string.h>

static uint32_t shown(plain_answer r, uint32_t which) { return which < PLAIN_EVIDENCE ? r.evidence[which] : 0; }

static plain_answer read_it(const uint8_t *file, size_t file_len)
{
    static plain_set s;
    return plain_read(file, file_len, &s);
}

uint32_t flute_read(const uint8_t *file, size_t file_len) { return read_it(file, file_len).number; }
uint32_t flute_read_evidence(const uint8_t *file, size_t file_len, uint32_t which) { return shown(read_it(file, file_len), which); }

/* Where plain C writes, its evidence is asked on buffers of its own. */
uint32_t flute_write(const uint8_t *tasks, size_t tasks_len, const uint8_t *plan, size_t plan_len, uint8_t *out, size_t out_len)
{
    return plain_write(tasks, tasks_len, plan, plan_len, out, out_len).number;
}

uint32_t flute_write_evidence(const uint8_t *tasks, size_t tasks_len, const uint8_t *plan, size_t plan_len, const uint8_t *out, size_t out_len,
                              uint32_t which)
{
    static uint8_t o[FLUTE_LONGEST_FILE];
    (void)out;
    return shown(plain_write(tasks, tasks_len, plan, plan_len, o, out_len), which);
}

uint32_t flute_screen(const uint8_t *tasks, size_t tasks_len) { return plain_screen(tasks, tasks_len).number; }
uint32_t flute_screen_evidence(const uint8_t *tasks, size_t tasks_len, uint32_t which) { return shown(plain_screen(tasks, tasks_len), which); }

uint32_t flute_judge(const uint8_t *tasks, size_t tasks_len, const uint8_t *plan, size_t plan_len)
{
    return plain_judge(tasks, tasks_len, plan, plan_len).number;
}

uint32_t flute_judge_evidence(const uint8_t *tasks, size_t tasks_len, const uint8_t *plan, size_t plan_len, uint32_t which)
{
    return shown(plain_judge(tasks, tasks_len, plan, plan_len), which);
}

uint32_t flute_adjust(const uint8_t *tasks, size_t tasks_len, int32_t *releases, size_t releases_len, int32_t *deadlines, size_t deadlines_len)
{
    return plain_adjust(tasks, tasks_len, releases, releases_len, deadlines, deadlines_len).number;
}

uint32_t flute_adjust_evidence(const uint8_t *tasks, size_t tasks_len, const int32_t *releases, size_t releases_len, const int32_t *deadlines,
                               size_t deadlines_len, uint32_t which)
{
    static int32_t r[FLUTE_MOST_JOBS], d[FLUTE_MOST_JOBS];
    (void)releases, (void)deadlines;
    return shown(plain_adjust(tasks, tasks_len, r, releases_len, d, deadlines_len), which);
}

uint32_t flute_start(const uint8_t *tasks, size_t tasks_len, const uint8_t *plan, size_t plan_len, uint8_t *state, size_t state_len)
{
    return plain_start(tasks, tasks_len, plan, plan_len, state, state_len).number;
}

uint32_t flute_start_evidence(const uint8_t *tasks, size_t tasks_len, const uint8_t *plan, size_t plan_len, const uint8_t *state, size_t state_len,
                              uint32_t which)
{
    uint8_t s[FLUTE_STATE_BYTES];
    (void)state;
    return shown(plain_start(tasks, tasks_len, plan, plan_len, s, state_len), which);
}

uint32_t flute_step(const uint8_t *tasks, size_t tasks_len, const uint8_t *plan, size_t plan_len, uint64_t report, uint8_t *state, size_t state_len,
                    uint8_t *out, size_t out_len)
{
    return plain_step(tasks, tasks_len, plan, plan_len, report, state, state_len, out, out_len).number;
}

uint32_t flute_step_evidence(const uint8_t *tasks, size_t tasks_len, const uint8_t *plan, size_t plan_len, uint64_t report, const uint8_t *state,
                             size_t state_len, const uint8_t *out, size_t out_len, uint32_t which)
{
    uint8_t s[FLUTE_STATE_BYTES], o[FLUTE_MOST_PROCESSORS];
    (void)out;
    if (state_len == FLUTE_STATE_BYTES)
        memcpy(s, state, FLUTE_STATE_BYTES);
    return shown(plain_step(tasks, tasks_len, plan, plan_len, report, s, state_len, o, out_len), which);
}
