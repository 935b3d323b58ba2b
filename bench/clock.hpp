// The clock of the timed calls: the processor time of this thread, so that turns of other programs do not count.
#ifndef BENCH_CLOCK_HPP
#define BENCH_CLOCK_HPP

#include <time.h>

// The processor time of this thread so far, in microseconds.
inline double now() {
    timespec time;
    clock_gettime(CLOCK_THREAD_CPUTIME_ID, &time);
    return double(time.tv_sec) * 1e6 + double(time.tv_nsec) / 1e3;
}

#endif
