// The benchmark: the published structure and the project's library in one run, call by call in turn, on planes made
// here, with four and with eight neighbours. It prints tables of times and ratios, and checks on every plane that bytes
// and counts agree with the second implementation's. The library is there if WITH_MLHE is defined; see library.hpp.
// Every buffer is written once before it is measured.

#include "checker.hpp"
#include "grain.hpp"
#include "handed.hpp"
#include "library.hpp"
#include "planes.hpp"
#include "published.hpp"
#include "stopwatch.hpp"

#include <algorithm>
#include <cmath>
#include <cstdio>
#include <functional>
#include <string>
#include <utility>
#include <vector>

namespace {

using published::Counts;
using published::Parameters;

int rounds = 7;

// Ratios of times on all planes and shapes with the house setting: of the library to the published structure, with four
// and with eight neighbours, and of the library with eight neighbours to itself with four.
struct Ratios {
    std::vector<double> four;
    std::vector<double> eight;
    std::vector<double> eight_to_four;
} ratios;

// What a call left behind. Before a call all of it is blank, so that nothing of the call before counts for it.
struct Result {
    Counts counts;
    std::vector<std::uint8_t> plane;
    std::vector<std::uint8_t> output;

    explicit Result(std::size_t n) : plane(n), output(3 * n) { blank(); }
    void blank() {
        counts = {~std::uint64_t{0}, ~std::uint64_t{0}};
        std::fill(plane.begin(), plane.end(), 238);
        std::fill(output.begin(), output.end(), 238);
    }
    bool operator==(const Result &other) const {
        return counts == other.counts && plane == other.plane && output == other.output;
    }
};

// The times of one call of each, in seconds. The library's is 0 where there is none.
struct Times {
    double published;
    double library;
};

// Measures two calls in turn and checks what they left behind.
Times compare(const std::string &name, const Result &expected, const std::function<void(Result &)> &by_published,
              const std::function<void(Result &)> &by_library) {
    Result result(expected.plane.size());
    Stopwatch published_watch, library_watch;
    for (int round = 0; round < rounds; round++) {
        result.blank();
        published_watch.measure([&] { by_published(result); });
        require(result == expected, "published structure, " + name);
        if (library::linked) {
            result.blank();
            library_watch.measure([&] { by_library(result); });
            require(result == expected, "library, " + name);
        }
    }
    return {published_watch.time(), library::linked ? library_watch.time() : 0};
}

// What the second implementation makes of a frame with the plane's sides.
Result expected_of(const planes::Plane &plane, const std::vector<std::uint8_t> &frame,
                   const library::Settings &settings) {
    Result expected(plane.values.size());
    expected.counts = checker_enhance(
        frame.data(), plane.w, plane.h, settings.last_level, static_cast<std::uint32_t>(settings.area), settings.rule,
        static_cast<std::uint8_t>(settings.neighbours), expected.plane.data(), expected.output.data());
    return expected;
}

Times time_enhance(const planes::Plane &plane, const Parameters &parameters) {
    const std::vector<std::uint8_t> frame = planes::coloured(plane);
    const library::Settings settings = library::settings_of(parameters);
    library::Memory memory(plane.values.size());
    const Result expected = expected_of(plane, frame, settings);
    return compare(
        plane.name, expected,
        [&](Result &r) {
            r.counts = published::enhance(frame.data(), plane.w, plane.h, parameters, r.plane.data(), r.output.data());
        },
        [&](Result &r) {
            r.counts = library::enhance(frame.data(), plane.w, plane.h, settings, r.plane.data(), memory,
                                        r.output.data());
        });
}

// A pass on the plane itself. The copy that each call starts from is part of both times.
Times time_pass(const planes::Plane &plane, int min, int max, const Parameters &parameters) {
    const std::size_t n = plane.values.size();
    const library::Settings settings = library::settings_of(parameters);
    const library::Pass pass{min, max, settings.area, settings.rule, settings.neighbours};
    library::Memory memory(n);
    Result expected(n);
    expected.plane = plane.values;
    expected.counts = checker_pass(expected.plane.data(), plane.w, plane.h, static_cast<std::uint8_t>(min),
                                   static_cast<std::uint8_t>(max), static_cast<std::uint32_t>(pass.area), pass.rule,
                                   static_cast<std::uint8_t>(pass.neighbours));
    return compare(
        plane.name, expected,
        [&](Result &r) {
            r.plane = plane.values;
            r.counts = published::pass(r.plane.data(), plane.w, plane.h, min, max, parameters);
        },
        [&](Result &r) {
            r.plane = plane.values;
            r.counts = library::pass(r.plane.data(), plane.w, plane.h, pass, memory);
        });
}

// The head of a table, which has a last column for some rows where it is named.
void head(const std::string &title, const char *last = "") {
    std::printf("\n%s\n%-28s %12s %10s", title.c_str(), "", "published ms", "ns/pixel");
    if (library::linked) {
        std::printf(" %12s %10s %8s%s", "library ms", "ns/pixel", "ratio", last);
    }
    std::printf("\n");
}

void cells(const std::string &name, std::size_t n, const Times &times) {
    const double pixel = 1e9 / static_cast<double>(n);
    std::printf("%-28s %12.2f %10.1f", name.c_str(), 1e3 * times.published, pixel * times.published);
    if (library::linked) {
        std::printf(" %12.2f %10.1f %8.2f", 1e3 * times.library, pixel * times.library,
                    times.library / times.published);
    }
}

void row(const std::string &name, std::size_t n, const Times &times) {
    cells(name, n, times);
    std::printf("\n");
    std::fflush(stdout);
}

constexpr const char *to_four = "  to four";

// Two rows, with four and with eight neighbours. The last column is of the library's times with eight and with four.
void rows(const std::string &name, std::size_t n, const Times &four, const Times &eight) {
    row(name, n, four);
    cells("  with eight neighbours", n, eight);
    if (library::linked) {
        std::printf(" %8.2f", eight.library / four.library);
    }
    std::printf("\n");
    std::fflush(stdout);
}

Parameters with_eight(Parameters parameters) {
    parameters.neighbours = 8;
    return parameters;
}

std::string sides(int w, int h) { return std::to_string(w) + " x " + std::to_string(h); }

void every_plane_and_shape() {
    const int shapes[3][2] = {{1024, 1024}, {4096, 256}, {256, 4096}};
    for (const auto &shape : shapes) {
        head("Enhancement, house setting, " + sides(shape[0], shape[1]), to_four);
        for (const std::string &kind : planes::kinds()) {
            const planes::Plane plane = planes::make(kind, shape[0], shape[1]);
            const Times four = time_enhance(plane, published::house);
            const Times eight = time_enhance(plane, with_eight(published::house));
            rows(kind, plane.values.size(), four, eight);
            ratios.four.push_back(four.library / four.published);
            ratios.eight.push_back(eight.library / eight.published);
            ratios.eight_to_four.push_back(eight.library / four.library);
        }
    }
}

void least_area_1() {
    head("Enhancement, house setting but least area 1, " + sides(1024, 1024), to_four);
    Parameters parameters = published::house;
    parameters.area = 1;
    for (const std::string kind : {"natural", "clean", "noise", "checkerboard", "corners", "wires", "tiles"}) {
        const planes::Plane plane = planes::make(kind, 1024, 1024);
        rows(kind, plane.values.size(), time_enhance(plane, parameters), time_enhance(plane, with_eight(parameters)));
    }
}

void growth_with_pixels() {
    head("Growth with the number of pixels, house setting");
    for (const std::string kind : {"natural", "noise"}) {
        for (const int side : {64, 256, 512, 1024}) {
            const planes::Plane plane = planes::make(kind, side, side);
            row(kind + " " + sides(side, side), plane.values.size(), time_enhance(plane, published::house));
        }
    }
}

// One level's share is what the levels cost beyond level 0, over their number. Intensity and colours are in every row.
void growth_with_levels_and_single_passes() {
    head("Growth with L, natural, " + sides(1024, 1024));
    const planes::Plane plane = planes::make("natural", 1024, 1024);
    Times first{}, last{};
    for (int level = 0; level <= 7; level++) {
        Parameters parameters = published::house;
        parameters.last_level = level;
        last = time_enhance(plane, parameters);
        first = level == 0 ? last : first;
        row("L " + std::to_string(level), plane.values.size(), last);
    }
    head("Single passes, natural, " + sides(1024, 1024));
    row("(one level of the above)", plane.values.size(),
        {(last.published - first.published) / 7, (last.library - first.library) / 7});
    const int sections[5][2] = {{0, 255}, {0, 127}, {128, 255}, {64, 127}, {96, 111}};
    for (const auto &section : sections) {
        const std::string name = "[" + std::to_string(section[0]) + ", " + std::to_string(section[1]) + "]";
        row(name, plane.values.size(), time_pass(plane, section[0], section[1], published::house));
    }
}

// The rows of a pass on [0, greatest].
void rows(const planes::Plane &plane, int greatest, const Parameters &parameters) {
    rows(plane.name + " [0, " + std::to_string(greatest) + "]", plane.values.size(),
         time_pass(plane, 0, greatest, parameters), time_pass(plane, 0, greatest, with_eight(parameters)));
}

// A pass with least area 1 over the planes that are hardest on a search and a flood.
void single_passes_by_shape() {
    const int shapes[3][2] = {{1024, 1024}, {4096, 256}, {256, 4096}};
    Parameters parameters = published::house;
    parameters.area = 1;
    for (const auto &shape : shapes) {
        head("Single passes, least area 1, " + sides(shape[0], shape[1]), to_four);
        rows(planes::make("flat", shape[0], shape[1]), 255, parameters);
        for (const char *kind : {"noise", "comb", "corners"}) {
            rows(planes::make(kind, shape[0], shape[1]), 127, parameters);
        }
    }
}

// The house setting's rule; the limited rule with a fiftieth of the pixels as its clip; the affine rule with the
// numbers of its published tests, and with the greatest ones, by which few components are kept back.
constexpr std::pair<const char *, library::Rule> rules[] = {
    {"plain, 80 to 300", library::plain(published::house.low, published::house.high)},
    {"limited, 20", library::limited(20)},
    {"affine, 10, 50 to 300", library::affine(10, 50, 300)},
    {"affine, 16, 10,000", library::affine(16, 10000, 10000)},
};

// A rule on one frame: what the second implementation answers, and the library's time.
struct RuleRun {
    const char *name;
    library::Settings settings;
    Result expected;
    Stopwatch watch;
};

// The library's enhancement of one plane with each rule in turn.
std::vector<RuleRun> runs_on(const planes::Plane &plane) {
    const std::vector<std::uint8_t> frame = planes::coloured(plane);
    library::Memory memory(plane.values.size());
    Result result(plane.values.size());
    std::vector<RuleRun> runs;
    for (const auto &[name, rule] : rules) {
        const library::Settings settings{published::house.last_level, published::house.area, rule, 4};
        runs.push_back({name, settings, expected_of(plane, frame, settings), Stopwatch()});
    }
    for (int round = 0; round < rounds; round++) {
        for (RuleRun &run : runs) {
            result.blank();
            run.watch.measure([&] {
                result.counts = library::enhance(frame.data(), plane.w, plane.h, run.settings, result.plane.data(),
                                                 memory, result.output.data());
            });
            require(result == run.expected, "library, " + plane.name + ", " + run.name);
        }
    }
    return runs;
}

// The ratios are of the times with each rule and with the first.
void enhancement_by_rule() {
    if (!library::linked) {
        return;
    }
    std::printf("\nEnhancement by the library with each rule, last level 7, least area 20, %s\n",
                sides(1024, 1024).c_str());
    std::printf("%-34s %9s %9s %12s %10s %8s\n", "", "retoned", "kept", "library ms", "ns/pixel", "to plain");
    for (const std::string kind : {"natural", "clean", "noise", "tiles"}) {
        const std::vector<RuleRun> runs = runs_on(planes::make(kind, 1024, 1024));
        for (const RuleRun &run : runs) {
            const double time = run.watch.time(), n = static_cast<double>(run.expected.plane.size());
            std::printf("%-34s %9zu %9zu %12.2f %10.1f %8.2f\n", (kind + ", " + run.name).c_str(),
                        std::size_t{run.expected.counts.retoned}, std::size_t{run.expected.counts.kept}, 1e3 * time,
                        1e9 * time / n, time / runs[0].watch.time());
        }
        std::fflush(stdout);
    }
}

void summary(const char *name, const std::vector<double> &of) {
    double logarithms = 0;
    for (const double ratio : of) {
        logarithms += std::log(ratio);
    }
    std::printf("%-40s geometric mean %.2f, greatest %.2f\n", name,
                std::exp(logarithms / static_cast<double>(of.size())), *std::max_element(of.begin(), of.end()));
}

void summary() {
    if (!library::linked) {
        std::printf("\nThe library is not linked; the published structure's bytes and counts are right.\n");
        return;
    }
    std::printf("\nAll bytes and counts agree. Ratios on all planes and shapes with the house setting:\n");
    summary("library to published, four neighbours", ratios.four);
    summary("library to published, eight neighbours", ratios.eight);
    summary("library, eight neighbours to four", ratios.eight_to_four);
    std::printf("Lent to the library beside plane and output: n bytes of marks and 4 n bytes of queue.\n");
}

// Holds the published structure, and the library where it is linked, against the second implementation, without
// measuring: on small planes of every kind, also with sides of 1, with four and with eight neighbours.
void small_planes() {
    const int shapes[6][2] = {{60, 44}, {45, 61}, {97, 1}, {1, 97}, {2, 2}, {1, 1}};
    shortest = 0;
    rounds = 1;
    int agreed = 0;
    for (const auto &shape : shapes) {
        for (const std::string &kind : planes::kinds()) {
            const planes::Plane plane = planes::make(kind, shape[0], shape[1]);
            for (const std::size_t area : {1, 2, 20}) {
                Parameters parameters = published::house;
                parameters.area = area;
                for (const Parameters &each : {parameters, with_eight(parameters)}) {
                    time_enhance(plane, each);
                    time_pass(plane, 0, 127, each);
                    agreed += 2;
                }
            }
        }
    }
    std::printf("small planes: %d calls agree, half of them with eight neighbours\n", agreed);
}

} // namespace

int main(int argc, char **argv) {
    const std::string option = argc == 2 ? argv[1] : "";
    if (option == "--verify") {
        small_planes();
        std::printf("sections handed out: %d frames agree with the enhancement\n", verify_handed());
        return 0;
    }
    if (option == "--grain") {
        print_grain(rounds);
        return 0;
    }
    if (option == "--threads") {
        print_handed(rounds);
        return 0;
    }
    if (option == "--quick") {
        rounds = 1;
    } else if (argc != 1) {
        std::fprintf(stderr, "%s [--quick | --grain | --threads | --verify]\n", argv[0]);
        return 2;
    }
    every_plane_and_shape();
    least_area_1();
    growth_with_pixels();
    growth_with_levels_and_single_passes();
    single_passes_by_shape();
    enhancement_by_rule();
    print_grain(rounds);
    print_handed(rounds);
    summary();
    return 0;
}
