/* Times a loop by the processor time of this process, not by the clock on the wall: what else runs on the machine then counts less. */

#include <stddef.h>
#include <stdint.h>

/* of the C library, which the program that loads this object has; the kit has no headers */
typedef struct { long seconds, nanoseconds; } moment;
int clock_gettime(int clock, moment *now);
enum { PROCESS_TIME = 2 };

/* A loop takes up to eight words; words that it has no parameter for are not looked at. */
typedef uint64_t loop(uint64_t, uint64_t, uint64_t, uint64_t, uint64_t, uint64_t, uint64_t, uint64_t);

/* Nanoseconds of a loop that runs so many bytes further down the stack. Where its memory lies there can move a time, so callers try many. */
uint64_t timed(loop *run, const uint64_t *w, size_t deeper) {
    volatile uint8_t below[deeper + 1];
    below[0] = 0;
    moment from, to;
    clock_gettime(PROCESS_TIME, &from);
    run(w[0], w[1], w[2], w[3], w[4], w[5], w[6], w[7]);
    clock_gettime(PROCESS_TIME, &to);
    return (uint64_t)(to.seconds - from.seconds) * 1000000000u + (uint64_t)to.nanoseconds - (uint64_t)from.nanoseconds;
}
