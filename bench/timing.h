/* How the benchmarks take times. Include it first: it asks C's library for its clock. */
#ifndef TIMING_H
#define TIMING_H
#define _POSIX_C_SOURCE 199309L
#include <stddef.h>
#include <time.h>

static double now(void)
{
    struct timespec t;
    clock_gettime(CLOCK_MONOTONIC, &t);
    return (double)t.tv_sec * 1e9 + (double)t.tv_nsec;
}

/* So many calls, so that a step of the clock does not count, and the time of one share of them, where it is the best so
 * far. 0 is no time yet. */
#define TIMED(best, calls, shares, statement)                              \
    do {                                                                   \
        double took_ = now();                                              \
        for (size_t call_ = 0; call_ < (calls); call_++)                   \
            statement;                                                     \
        took_ = (now() - took_) / (shares);                                \
        best = best == 0 || took_ < best ? took_ : best;                   \
    } while (0)

/* in a round no side is always the first */
#define EACH_SIDE for (int k = 0, s = round % SIDES; k < SIDES; k++, s = (s + 1) % SIDES)
#endif
