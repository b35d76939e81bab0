// Each level's sections are taken by threads one after the other, each thread on a copy of its own of the plane that
// the level began with. The copies are put together: a pixel's new value is that in the copy of the thread that took
// the section of its old value. The next level begins with that plane. Intensity and colours are in both times.

#include "handed.hpp"

#include "library.hpp"
#include "planes.hpp"
#include "published.hpp"
#include "stopwatch.hpp"

#include <algorithm>
#include <array>
#include <atomic>
#include <chrono>
#include <cstdio>
#include <functional>
#include <string>
#include <thread>
#include <vector>

namespace {

using published::Counts;

struct Result {
    Counts counts;
    std::vector<std::uint8_t> plane;
    std::vector<std::uint8_t> output;

    explicit Result(std::size_t n) : counts{0, 0}, plane(n), output(3 * n) {}
    bool operator==(const Result &other) const {
        return counts == other.counts && plane == other.plane && output == other.output;
    }
};

// A thread's own memory.
struct Worker {
    std::vector<std::uint8_t> copy;
    library::Memory memory;
    Counts counts;

    explicit Worker(std::size_t n) : copy(n), memory(n), counts{0, 0} {}
};

// Calls for each worker, on a thread of its own but for the first.
void on_threads(std::vector<Worker> &workers, const std::function<void(std::size_t)> &call) {
    std::vector<std::thread> threads;
    for (std::size_t at = 1; at < workers.size(); at++) {
        threads.emplace_back(call, at);
    }
    call(0);
    for (std::thread &thread : threads) {
        thread.join();
    }
}

// One level: every section once, by whichever thread comes, and the copies put together.
Counts run_level(std::vector<std::uint8_t> &plane, int w, int h, int level, const library::Settings &settings,
                 std::vector<Worker> &workers) {
    const unsigned sections = 1U << level, width = 256U >> level;
    const std::size_t area = level == 0 ? 1 : settings.area;
    std::atomic<unsigned> next{0};
    std::array<std::size_t, 128> taken{};
    on_threads(workers, [&](std::size_t at) {
        Worker &worker = workers[at];
        std::copy(plane.begin(), plane.end(), worker.copy.begin());
        worker.counts = {0, 0};
        for (unsigned section = next++; section < sections; section = next++) {
            taken[section] = at;
            const int a = static_cast<int>(section * width), b = a + static_cast<int>(width) - 1;
            const library::Pass pass{a, b, area, settings.rule, settings.neighbours};
            worker.counts = worker.counts + library::pass(worker.copy.data(), w, h, pass, worker.memory);
        }
    });
    std::array<const std::uint8_t *, 256> copies{};
    for (unsigned value = 0; value < 256; value++) {
        copies[value] = workers[taken[value / width]].copy.data();
    }
    for (std::size_t i = 0; i < plane.size(); i++) {
        plane[i] = copies[plane[i]][i];
    }
    Counts counts{0, 0};
    for (const Worker &worker : workers) {
        counts = counts + worker.counts;
    }
    return counts;
}

void enhance_handed(const std::vector<std::uint8_t> &frame, int w, int h, const library::Settings &settings,
                    std::vector<Worker> &workers, Result &result) {
    library::intensity(frame.data(), w, h, result.plane.data());
    result.counts = {0, 0};
    for (int level = 0; level <= settings.last_level; level++) {
        result.counts = result.counts + run_level(result.plane, w, h, level, settings, workers);
    }
    library::recolour(frame.data(), w, h, result.plane.data(), result.output.data());
}

// The enhancement on one thread, and its levels handed out to so many.
struct Calls {
    const planes::Plane &plane;
    library::Settings settings;
    std::vector<std::uint8_t> frame;
    library::Memory memory;
    Result whole, handed;

    Calls(const planes::Plane &plane, const library::Settings &settings)
        : plane(plane), settings(settings), frame(planes::coloured(plane)), memory(plane.values.size()),
          whole(plane.values.size()), handed(plane.values.size()) {}

    void enhance() {
        whole.counts = library::enhance(frame.data(), plane.w, plane.h, settings, whole.plane.data(), memory,
                                        whole.output.data());
    }
    void hand_out(std::vector<Worker> &workers) {
        enhance_handed(frame, plane.w, plane.h, settings, workers, handed);
        require(handed == whole, "sections on " + std::to_string(workers.size()) + " threads, " + plane.name);
    }
};

// The least time on the clock of several rounds, in seconds.
void measure(double &least, const std::function<void()> &call) {
    const auto start = std::chrono::steady_clock::now();
    call();
    const std::chrono::duration<double> took = std::chrono::steady_clock::now() - start;
    least = std::min(least, took.count());
}

} // namespace

void print_handed(int rounds) {
    if (!library::linked) {
        std::printf("\nThe library is not linked: sections handed out are not measured.\n");
        return;
    }
    std::printf("\nSections handed out level by level, house setting, 1024 x 1024, in ms on the clock\n");
    std::printf("%-16s %12s %12s %8s %12s %8s\n", "", "enhancement", "one thread", "ratio", "two threads", "ratio");
    for (const std::string kind : {"natural", "clean", "noise", "gradient", "flat", "tiles"}) {
        const planes::Plane plane = planes::make(kind, 1024, 1024);
        Calls calls(plane, library::settings_of(published::house));
        std::vector<Worker> one(1, Worker(plane.values.size())), two(2, Worker(plane.values.size()));
        double whole = 1e9, on_one = 1e9, on_two = 1e9;
        for (int round = 0; round < rounds; round++) {
            measure(whole, [&] { calls.enhance(); });
            measure(on_one, [&] { calls.hand_out(one); });
            measure(on_two, [&] { calls.hand_out(two); });
        }
        std::printf("%-16s %12.2f %12.2f %8.2f %12.2f %8.2f\n", kind.c_str(), 1e3 * whole, 1e3 * on_one,
                    on_one / whole, 1e3 * on_two, on_two / whole);
        std::fflush(stdout);
    }
}

int verify_handed() {
    if (!library::linked) {
        return 0;
    }
    const int shapes[4][2] = {{60, 44}, {97, 1}, {1, 97}, {1, 1}};
    int compared = 0;
    for (const auto &shape : shapes) {
        for (const std::string &kind : planes::kinds()) {
            const planes::Plane plane = planes::make(kind, shape[0], shape[1]);
            for (const int neighbours : {4, 8}) {
                library::Settings settings = library::settings_of(published::house);
                settings.neighbours = neighbours;
                Calls calls(plane, settings);
                calls.enhance();
                for (std::size_t threads = 1; threads <= 5; threads++) {
                    std::vector<Worker> workers(threads, Worker(plane.values.size()));
                    calls.hand_out(workers);
                    compared++;
                }
            }
        }
    }
    return compared;
}
