// How a call is timed: a warm-up, then the best of several runs, in nanoseconds a pixel. The clock is the thread's own: waiting for a processor does not count.
#pragma once
#include <algorithm>
#include <ctime>

inline double clock_seconds()
{
    timespec now;
    clock_gettime(CLOCK_THREAD_CPUTIME_ID, &now);
    return now.tv_sec + now.tv_nsec * 1e-9;
}

template <class Call> double seconds_of(Call call)
{
    double start = clock_seconds();
    call();
    return clock_seconds() - start;
}

// The best of at most `runs`, and of fewer once they have taken `seconds` together. A warm-up that takes as long by itself is the measurement.
template <class Call> double nanoseconds_a_pixel(double pixels, int runs, double seconds, Call call)
{
    double warm = seconds_of(call), best = warm, spent = 0;
    if (warm < seconds)
        for (int i = 0; i < runs && spent < seconds; i++) {
            double took = seconds_of(call);
            best = i == 0 ? took : std::min(best, took);
            spent += took;
        }
    return best * 1e9 / pixels;
}
