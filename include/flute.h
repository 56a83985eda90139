/* Fluteparcel for C: the calls of libflute.a. Nothing is kept between calls, nothing is allocated, and calls may run side by side. Tables stand on the stack:
   docs/BENCH.md says how much of it each call was seen to touch.

   A call answers its number: 0, or a refusal number of docs/RULES.md. Where several would fit, the first in the order that is said with the call is
   answered. A refusal changes no byte that was lent.

   Every call has a partner `.._evidence` with the same arguments and `which`. It answers evidence number `which`, counted from 0, of what the call
   answers on these arguments, and 0 past the last; it writes nothing. A refused call has changed nothing, so its evidence can be asked after it. A job
   is two evidence numbers: task, then job. A place is a number of bytes, or of slots, from the start of its buffer. Tasks, jobs, ticks, processors,
   patterns and the pairs of a pattern count from 0.

   A pointer is followed by its length, in elements; it is not null, also where that length is 0, and a buffer that is written overlaps no other. `tasks` is
   a plan file from its edition to its last pair, and says m too; `plan` is the file's slots. An executive reads a file, calls flute_read, and splits the
   file at the place of the first slot. Tasks and plan that never were in a file are tested all the same: bytes that the reader would refuse up to the last
   pair, by whatever number, and bytes left over after it are bad tasks, 10. */
#ifndef FLUTE_H
#define FLUTE_H
#include <stddef.h>
#include <stdint.h>
#ifdef __cplusplus
extern "C" {
#endif

#define FLUTE_LONGEST_FILE 52868   /* no file that is read has more bytes */
#define FLUTE_MOST_TASKS 64
#define FLUTE_MOST_PROCESSORS 8
#define FLUTE_LONGEST_CYCLE 6000   /* H, in ticks */
#define FLUTE_MOST_JOBS 2048       /* in a cycle */
#define FLUTE_STATE_BYTES 21

/* Reads a plan file. The first fault in the order of the file is answered; a number's form is tested before its meaning, 5 and 9 before anything behind
   their place.
     0  read: evidence is the place of the first slot
     1  the file ends inside or before a number or slot that is needed: the file's length
     2  a number is not in its shortest form, or its third byte has the top bit: the number's first byte
     3  the edition is neither 1 nor 2: 0
     4  task count, m, an attribute of a task or the pattern count is outside the limits, or a pair count carries the total past 1,024: the number's
        first byte
     5  H is over 6,000, or there are over 2,048 jobs in a cycle: the place after the last task
     6  a pattern or pair breaks range, order or difference, or a pair count is 0: the number's first byte. The second number of a pair is below p/Tj in
        edition 1 and below 2·p/Tj in edition 2, where a link may lead into the next round
     9  there are over 4,096 links in a cycle: the place after the last pattern
     7  a slot is above the task count: its place
     8  there are bytes after the last slot: the first of them
   A place at or above 2^32 is shown by its remainder. Nothing is written. */
uint32_t flute_read(const uint8_t *file, size_t file_len);
uint32_t flute_read_evidence(const uint8_t *file, size_t file_len, uint32_t which);

/* Writes the plan file of tasks and plan: the numbers of the tasks, each in its shortest form, and then the slots. Tested in this order:
    10  bad tasks
    11  the plan has not exactly m·H slots
    12  a slot is above the task count: the lowest such place in the plan
    18  out is shorter than the file
     0  the file stands at the start of out: evidence is its length
   The bytes of out after the file stay as they were; FLUTE_LONGEST_FILE bytes are enough for any file. flute_read takes what was written, and its first slot
   stands where the tasks end; where tasks and plan are the parts of a file, the same bytes are written. The evidence does not depend on what out holds, so that
   it can be asked before the call and after it. */
uint32_t flute_write(const uint8_t *tasks, size_t tasks_len, const uint8_t *plan, size_t plan_len, uint8_t *out, size_t out_len);
uint32_t flute_write_evidence(const uint8_t *tasks, size_t tasks_len, const uint8_t *plan, size_t plan_len, const uint8_t *out, size_t out_len,
                              uint32_t which);

/* Looks for reasons why these tasks can have no plan. Tested in this order:
    10  bad tasks
    13  links between jobs of one cycle make a cycle: the lowest job that lies on one
    14  the jobs of a cycle ask for more ticks than m processors have: both numbers, asked first
    15  a job's adjusted release and its running time reach past its adjusted deadline: the lowest such job
     0  no finding
   After 13, 14 or 15 no plan for these tasks is accepted; 0 does not say that there is one. Nothing is written. */
uint32_t flute_screen(const uint8_t *tasks, size_t tasks_len);
uint32_t flute_screen_evidence(const uint8_t *tasks, size_t tasks_len, uint32_t which);

/* Works out the adjusted release and the adjusted deadline of every job of a cycle, ordered by task, then job: the release leaves time for each job before it
   to run, the greatest of the job's own release and, for each predecessor, that one's adjusted release plus its running time; the deadline leaves time for each
   job after it, the least of the job's own deadline and, for each successor, that one's adjusted deadline less its running time. Tested in this order:
    10  bad tasks
    11  either buffer has not exactly as many numbers as a cycle has jobs (H/T for each task, added up)
    13  links between jobs of one cycle make a cycle: the lowest job that lies on one
     0  both buffers are written, each whole
   The times are absolute; a deadline may be negative, and both may be past H. A link that leads out of the cycle, into the next, changes no time. */
uint32_t flute_adjust(const uint8_t *tasks, size_t tasks_len, int32_t *releases, size_t releases_len, int32_t *deadlines, size_t deadlines_len);
uint32_t flute_adjust_evidence(const uint8_t *tasks, size_t tasks_len, const int32_t *releases, size_t releases_len, const int32_t *deadlines,
                               size_t deadlines_len, uint32_t which);

/* Judges a plan, for all time and not for one cycle only. Tested in this order:
    10  bad tasks
    11  the plan has not exactly m·H slots
    12  a slot is above the task count: the lowest such place in the plan
    20  a task stands twice in one tick: tick, lower processor, higher processor
    21  a slot lies outside its task's windows: tick, processor
    22  a job's ticks in its window are not its running time: task, job, how many ticks it gets, and the first and the last of them, in true time, so that
        they may be past H; for a job with no ticks its release for both
    23  a link is broken, within the cycle or into the next: pattern, pair, and k, which repetition of the pair it is, below H/p
     0  accepted: every job always gets its running time inside its window, on one processor at a time, and every precedence is kept
   Nothing is written. */
uint32_t flute_judge(const uint8_t *tasks, size_t tasks_len, const uint8_t *plan, size_t plan_len);
uint32_t flute_judge_evidence(const uint8_t *tasks, size_t tasks_len, const uint8_t *plan, size_t plan_len, uint32_t which);

/* Judges the plan and starts it. Refuses as flute_judge does, with the same evidence; 11 also for a state that has not exactly 21 bytes.
     0  accepted, and all 21 bytes of the state are written: tick 0 of the first cycle, nobody done, nobody ran
   The state's bytes, lowest byte of a number first: the tick that the next step shows (4), first cycle (1: 1 during it, 0 after), the tasks that are done
   (8, bit i for task i), the tasks that ran in the last step's tick (8). */
uint32_t flute_start(const uint8_t *tasks, size_t tasks_len, const uint8_t *plan, size_t plan_len, uint8_t *state, size_t state_len);
uint32_t flute_start_evidence(const uint8_t *tasks, size_t tasks_len, const uint8_t *plan, size_t plan_len, const uint8_t *state, size_t state_len,
                              uint32_t which);

/* Goes on by one tick. It hears the report about the tick just ended (bit i: task i finished in it), and then shows in out what each processor runs in the next
   tick: v is task v - 1, and 0 is idle, as the plan has it, and also where the task is not yet awake or its job is heard to be finished. A report bit counts
   for a task that ran in the tick just ended, and is ignored for any other. Tested in this order:
    10  bad tasks
    11  the plan has not exactly m·H slots, out not exactly m bytes, or state not exactly 21
    30  the state is not possible: its tick is not below H, its first-cycle byte is over 1, or it marks a task at or above the task count
    31  the report has a bit at or above the task count
    12  a slot of this tick is above the task count: the lowest such place in the plan
     0  all m bytes of out and all 21 of the state are written
   A refused step is no tick, and its report is not heard. The plan is not judged again: step only what flute_start has started, with the same tasks and
   plan. No count of ticks since the start is kept, so none can overflow. */
uint32_t flute_step(const uint8_t *tasks, size_t tasks_len, const uint8_t *plan, size_t plan_len, uint64_t report, uint8_t *state, size_t state_len,
                    uint8_t *out, size_t out_len);
uint32_t flute_step_evidence(const uint8_t *tasks, size_t tasks_len, const uint8_t *plan, size_t plan_len, uint64_t report, const uint8_t *state,
                             size_t state_len, const uint8_t *out, size_t out_len, uint32_t which);

#ifdef __cplusplus
}
#endif
#endif
