/* The same jobs in plain C, written from document 01 and the requests and from nothing of the proved code: the peer of the tests and of the benchmark. */
#ifndef PLAIN_H
#define PLAIN_H
#include <stddef.h>
#include <stdint.h>

typedef struct {
    uint32_t edition, processors;
    uint32_t tasks, period[64], running[64], offset[64], deadline[64];
    uint32_t patterns, from[64], to[64], pairs[64];
    uint16_t first[1024], second[1024];
    uint32_t cycle, jobs;
} plain_set;

/* A number of document 01 (0 where nothing is refused) and its evidence; what is not evidence reads 0. */
enum { PLAIN_EVIDENCE = 5 };
typedef struct {
    uint32_t number, evidence[PLAIN_EVIDENCE];
} plain_answer;

plain_answer plain_read(const uint8_t *file, size_t length, plain_set *set);
plain_answer plain_write(const uint8_t *tasks, size_t tasks_len, const uint8_t *plan, size_t plan_len, uint8_t *out, size_t out_len);
plain_answer plain_screen(const uint8_t *tasks, size_t tasks_len);
plain_answer plain_adjust(const uint8_t *tasks, size_t tasks_len, int32_t *releases, size_t releases_len, int32_t *deadlines,
                          size_t deadlines_len);
plain_answer plain_judge(const uint8_t *tasks, size_t tasks_len, const uint8_t *plan, size_t plan_len);
plain_answer plain_start(const uint8_t *tasks, size_t tasks_len, const uint8_t *plan, size_t plan_len, uint8_t *state, size_t state_len);
plain_answer plain_step(const uint8_t *tasks, size_t tasks_len, const uint8_t *plan, size_t plan_len, uint64_t report, uint8_t *state,
                        size_t state_len, uint8_t *out, size_t out_len);
#endif
