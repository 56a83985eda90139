/* A call and its evidence in one: of the proved archive, or of tests/stand_in.c where that is linked in its place. */
#ifndef CALLS_H
#define CALLS_H
#include "../bench/plain.h"
#include "../include/flute.h"
#include <string.h>

/* Evidence 0 to 5, of which there are five at most, and a number far past the last. */
enum { ASKED_FOR = PLAIN_EVIDENCE + 2 };
typedef struct {
    uint32_t number, evidence[ASKED_FOR];
} answer;

/* Right where number and evidence are plain C's, and nothing is shown past the last. */
static inline int agrees(answer a, plain_answer b)
{
    return a.number == b.number && !memcmp(a.evidence, b.evidence, sizeof b.evidence) && !a.evidence[PLAIN_EVIDENCE] && !a.evidence[PLAIN_EVIDENCE + 1];
}

/* The evidence is asked first, on the arguments as they come, since the call may write some of them; a test may look at them in between. */
#ifndef ASKED
#define ASKED() ((void)0)
#endif
#define ASK(r, call, ...) \
    answer r = {0, {call##_evidence(__VA_ARGS__, 0), call##_evidence(__VA_ARGS__, 1), call##_evidence(__VA_ARGS__, 2), call##_evidence(__VA_ARGS__, 3), \
                    call##_evidence(__VA_ARGS__, 4), call##_evidence(__VA_ARGS__, 5), call##_evidence(__VA_ARGS__, UINT32_MAX)}}; \
    ASKED()
#define CALL(call, ...) \
    ASK(r, call, __VA_ARGS__); \
    r.number = call(__VA_ARGS__); \
    return r

static inline answer call_read(const uint8_t *f, size_t n) { CALL(flute_read, f, n); }
static inline answer call_write(const uint8_t *t, size_t n, const uint8_t *p, size_t pn, uint8_t *o, size_t on) { CALL(flute_write, t, n, p, pn, o, on); }
static inline answer call_screen(const uint8_t *t, size_t n) { CALL(flute_screen, t, n); }
static inline answer call_judge(const uint8_t *t, size_t n, const uint8_t *p, size_t pn) { CALL(flute_judge, t, n, p, pn); }
static inline answer call_adjust(const uint8_t *t, size_t n, int32_t *a, size_t an, int32_t *d, size_t dn) { CALL(flute_adjust, t, n, a, an, d, dn); }
static inline answer call_start(const uint8_t *t, size_t n, const uint8_t *p, size_t pn, uint8_t *s, size_t sn) { CALL(flute_start, t, n, p, pn, s, sn); }
static inline answer call_step(const uint8_t *t, size_t n, const uint8_t *p, size_t pn, uint64_t rep, uint8_t *s, size_t sn, uint8_t *o, size_t on)
{
    CALL(flute_step, t, n, p, pn, rep, s, sn, o, on);
}

/* Whether the evidence of a write, asked again after the call, is what it was before. */
static inline int asked_again(answer r, const uint8_t *t, size_t n, const uint8_t *p, size_t pn, const uint8_t *o, size_t on)
{
    ASK(again, flute_write, t, n, p, pn, o, on);
    return !memcmp(again.evidence, r.evidence, sizeof r.evidence);
}
#endif
