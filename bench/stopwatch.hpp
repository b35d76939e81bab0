// How the benchmark measures and checks. Times are of the calling thread alone, and the least of several rounds is
// taken: other work on the machine then disturbs least.
#pragma once

#include <algorithm>
#include <cstdio>
#include <cstdlib>
#include <ctime>
#include <functional>
#include <string>

inline double seconds() {
    timespec now;
    clock_gettime(CLOCK_THREAD_CPUTIME_ID, &now);
    return static_cast<double>(now.tv_sec) + 1e-9 * static_cast<double>(now.tv_nsec);
}

// A call is repeated until it has taken so many seconds in all. With 0 it is made once.
inline double shortest = 0.01;

// The time of a call. Short calls are repeated.
inline double time_of(const std::function<void()> &call) {
    const double start = seconds();
    int calls = 0;
    do {
        call();
        calls++;
    } while (seconds() - start < shortest);
    return (seconds() - start) / calls;
}

// The least time of a call, over all rounds.
class Stopwatch {
  public:
    void measure(const std::function<void()> &call) { least = std::min(least, time_of(call)); }
    double time() const { return least; }

  private:
    double least = 1e9;
};

// Ends the benchmark where an answer is not the one that was expected.
inline void require(bool holds, const std::string &what) {
    if (!holds) {
        std::printf("DIFFERENT: %s\n", what.c_str());
        std::exit(1);
    }
}
