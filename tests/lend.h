/* Lent buffers under watch. Each stands at one edge of memory that may be touched, low or high by chance: on that side a read or a write outside faults, and on
   the other a write shows in guard bytes. What was lent is kept, so that a buffer that must not change can be compared. */
#ifndef LEND_H
#define LEND_H
#include <signal.h>
#include <stdint.h>
#include <stdio.h>
#include <stdlib.h>
#include <string.h>
#include <sys/mman.h>
#include <unistd.h>

enum { ROOM = 1 << 16, EDGE = 1 << 16, GUARD = 64, MOST_LENT = 4 };

typedef struct {
    uint8_t *room, *at;
    size_t length;
    int high, written; /* where it stands; whether the call may write it */
    uint8_t kept[ROOM];
} lent;

static lent lents[MOST_LENT];
static int lent_count;
static void trouble(const char *call, const char *what); /* the test's own: a fault was found */

static void fault(int signal)
{
    (void)signal;
    trouble("a call", "touched memory outside what was lent");
    printf("0 passed, 1 failed\n");
    fflush(stdout);
    _exit(1);
}

static void lend_open(void)
{
    int k;
    for (k = 0; k < MOST_LENT; k++) {
        uint8_t *all = mmap(NULL, EDGE + ROOM + EDGE, PROT_NONE, MAP_PRIVATE | MAP_ANONYMOUS, -1, 0);
        if (all == MAP_FAILED || mprotect(all + EDGE, ROOM, PROT_READ | PROT_WRITE))
            abort();
        lents[k].room = all + EDGE;
    }
    signal(SIGSEGV, fault);
    signal(SIGBUS, fault);
}

static uint8_t *guard_of(const lent *b) { return b->high ? b->at - GUARD : b->at + b->length; }

/* Lends a copy of the content as the next buffer. */
static uint8_t *lend(const void *content, size_t length, int high, int written)
{
    lent *b = &lents[lent_count++];
    b->at = high ? b->room + ROOM - length : b->room;
    b->length = length;
    b->high = high;
    b->written = written;
    memset(guard_of(b), 0xA5, GUARD);
    memcpy(b->at, content, length);
    memcpy(b->kept, content, length);
    return b->at;
}

/* After a call: nothing outside has changed, and inside only what the call may write, if it was not refused. */
static void watch(const char *call, int refused)
{
    int k, j;
    for (k = 0; k < lent_count; k++) {
        lent *b = &lents[k];
        for (j = 0; j < GUARD; j++)
            if (guard_of(b)[j] != 0xA5) {
                trouble(call, "wrote outside what was lent");
                memset(guard_of(b), 0xA5, GUARD);
            }
        if ((refused || !b->written) && memcmp(b->at, b->kept, b->length))
            trouble(call, b->written ? "wrote although it refused, or though only evidence was asked" : "wrote what was lent for reading");
        memcpy(b->kept, b->at, b->length);
    }
}
#endif
