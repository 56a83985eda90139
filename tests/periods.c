/* Two periods and their cycle through the archive. The cycle is the first multiple of the one that the other divides, found here by trying: a file of so many
   slots is read, and with a slot fewer it ends too soon (1). Where the multiple is over 6,000, or the jobs are over 2,048, 5 is answered. Every two periods with a
   multiple of at most 6,000 are tried, in both orders, and every 211th of the others. A first period passes with all of its second ones. */
#include "../include/flute.h"
#include "make.h"
#include <stdio.h>

enum { LONGEST = 6000, OTHERS = 211 };

/* The first multiple of a that b divides; 0 where it is over the longest cycle. */
static uint32_t tried(uint32_t a, uint32_t b)
{
    uint32_t m;
    for (m = a; m <= LONGEST; m += a)
        if (m % b == 0)
            return m;
    return 0;
}

/* Two tasks on one processor, up to the first slot. The slots behind them are idle: what a longer head of before may have left there is cleared. */
static void put_tasks(made *f, uint32_t a, uint32_t b)
{
    uint32_t head[] = {1, 2, 1, a, 1, 0, a, b, 1, 0, b, 0}, k;
    f->length = 0;
    for (k = 0; k < sizeof head / sizeof *head; k++)
        put(f, head[k]);
    memset(f->bytes + f->length, 0, 2 * sizeof head);
}

static int right(made *f, uint32_t a, uint32_t b, uint32_t h)
{
    put_tasks(f, a, b);
    if (!h || h / a + h / b > FLUTE_MOST_JOBS)
        return flute_read(f->bytes, f->length) == 5;
    return flute_read(f->bytes, f->length + h) == 0 && flute_read(f->bytes, f->length + h - 1) == 1;
}

int main(void)
{
    static made f;
    uint32_t a, b, others = 0;
    int passed = 0, failed = 0;
    for (a = 1; a <= LONGEST; a++) {
        uint32_t wrong = 0;
        for (b = 1; b <= LONGEST; b++) {
            uint32_t h = tried(a, b);
            if ((h || others++ % OTHERS == 0) && !right(&f, a, b, h) && !wrong)
                wrong = b;
        }
        if (wrong)
            printf("periods %u and %u: not as it should be\n", a, wrong);
        wrong ? failed++ : passed++;
    }
    printf("%d passed, %d failed\n", passed, failed);
    return failed != 0;
}
