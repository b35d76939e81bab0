// A row of a table is a level: passes over all sections of one width, from the lowest on, in one plane. Its time less
// that of the same passes with a least area that no component has is what treating the components takes; the latter is
// what finding them takes, with measuring them and counting their values. The share of their pixels is measured on a
// plane with such values in which each section is one component; the rest is their own.

#include "grain.hpp"

#include "checker.hpp"
#include "library.hpp"
#include "planes.hpp"
#include "stopwatch.hpp"

#include <algorithm>
#include <cstddef>
#include <cstdint>
#include <cstdio>
#include <string>
#include <vector>

namespace {

using published::Counts;

constexpr int side = 512;
constexpr std::uint32_t greatest_area = 1048576;

// The plain rule whatever the ratio; the limited rule with half of the pixels as its clip; the affine rule with ten
// segments of the greatest slope, by which few components are kept back.
constexpr library::Rule any_ratio = library::plain(0, 25500), half = library::limited(500);
constexpr library::Rule steep = library::affine(10, 10000, 10000);

// Fewer pixels than this do not tell what treating a component takes, fewer components not what of it is its own.
constexpr std::size_t few_pixels = 5000, few_components = 1000;

// Passes over all sections of one width, with four neighbours.
struct Level {
    int width;
    std::uint32_t area;
    library::Rule rule;
};

Counts by_library(planes::Plane &plane, const Level &level, library::Memory &memory) {
    Counts counts{0, 0};
    for (int a = 0; a < 256; a += level.width) {
        const int b = a + level.width - 1;
        const library::Pass pass{a, b, level.area, level.rule, 4};
        counts = counts + library::pass(plane.values.data(), plane.w, plane.h, pass, memory);
    }
    return counts;
}

Counts by_checker(planes::Plane &plane, const Level &level) {
    Counts counts{0, 0};
    for (int a = 0; a < 256; a += level.width) {
        const int b = a + level.width - 1;
        counts = counts + checker_pass(plane.values.data(), plane.w, plane.h, static_cast<std::uint8_t>(a),
                                       static_cast<std::uint8_t>(b), level.area, level.rule, 4);
    }
    return counts;
}

// How many components of at least an area the sections of one width have, and how many pixels these have together.
struct Components {
    std::size_t number;
    std::size_t pixels;
};

Components components_of(const planes::Plane &plane, int width, std::size_t area) {
    const auto w = static_cast<std::size_t>(plane.w);
    std::vector<bool> taken(plane.values.size(), false);
    std::vector<std::size_t> members;
    Components components{0, 0};
    for (std::size_t first = 0; first < plane.values.size(); first++) {
        if (taken[first]) {
            continue;
        }
        const auto take = [&](std::size_t p) {
            if (!taken[p] && plane.values[p] / width == plane.values[first] / width) {
                taken[p] = true;
                members.push_back(p);
            }
        };
        members.clear();
        take(first);
        for (std::size_t i = 0; i < members.size(); i++) {
            const std::size_t p = members[i];
            if (p % w > 0) take(p - 1);
            if (p % w + 1 < w) take(p + 1);
            if (p >= w) take(p - w);
            if (p + w < plane.values.size()) take(p + w);
        }
        if (members.size() >= area) {
            components.number++;
            components.pixels += members.size();
        }
    }
    return components;
}

// The times of a level in seconds: where no component has the area, and what it takes more where they are treated. The
// latter is a difference, so that it is taken as the middle one of its ratios to the former, over more rounds.
struct LevelTimes {
    double finding;
    double treating;
};

LevelTimes time_level(const planes::Plane &plane, const Level &level, int rounds) {
    const Level untreated{level.width, greatest_area, level.rule};
    library::Memory memory(plane.values.size());
    planes::Plane expected = plane, result = plane;
    const Counts counts = by_checker(expected, level);
    require(counts.retoned + counts.kept == components_of(plane, level.width, level.area).number,
            "components of sufficient area, " + plane.name);
    double finding = 1e9;
    std::vector<double> shares;
    for (int round = 0; round < 3 * rounds; round++) {
        Counts answer{0, 0};
        const double found = time_of([&] {
            result.values = plane.values;
            answer = by_library(result, untreated, memory);
        });
        require(answer == Counts{0, 0} && result.values == plane.values, "passes that treat nothing, " + plane.name);
        const double all = time_of([&] {
            result.values = plane.values;
            answer = by_library(result, level, memory);
        });
        require(answer == counts && result.values == expected.values, "passes of one width, " + plane.name);
        finding = std::min(finding, found);
        shares.push_back((all - found) / found);
    }
    std::sort(shares.begin(), shares.end());
    return {finding, finding * shares[shares.size() / 2]};
}

// What treating a pixel takes, in sections of each width from 256 down.
std::vector<double> pixel_times(const library::Rule &rule, int rounds) {
    std::vector<double> times;
    for (int width = 256; width >= 2; width /= 2) {
        const planes::Plane bands = planes::bands(width, side, side);
        const double treating = time_level(bands, {width, 1, rule}, rounds).treating;
        times.push_back(treating / static_cast<double>(bands.values.size()));
    }
    return times;
}

void print_level(const planes::Plane &plane, const Level &level, double pixel_time, int rounds) {
    const Components treated = components_of(plane, level.width, level.area);
    if (treated.number == 0) {
        std::printf("%6d %11d\n", level.width, 0);
        return;
    }
    const LevelTimes times = time_level(plane, level, rounds);
    const auto found = static_cast<double>(components_of(plane, level.width, 1).number);
    const auto number = static_cast<double>(treated.number);
    const double pixels = static_cast<double>(treated.pixels) / number;
    const double treating = times.treating / number;
    std::printf("%6d %11zu %10.1f %10.1f", level.width, treated.number, pixels, 1e9 * times.finding / found);
    if (treated.pixels >= few_pixels) {
        std::printf(" %10.1f", 1e9 * treating);
    }
    if (treated.number >= few_components) {
        std::printf(" %10.1f %10.1f", 1e9 * pixels * pixel_time, 1e9 * (treating - pixels * pixel_time));
    }
    std::printf("\n");
    std::fflush(stdout);
}

void print_levels(const std::string &kind, std::uint32_t area, const library::Rule &rule,
                  const std::vector<double> &pixel_times, int rounds) {
    const planes::Plane plane = planes::make(kind, side, side);
    std::printf("\nSmall components, in ns for each: %s, least area %u, %s, all sections of a width, %d x %d\n",
                kind.c_str(), area, library::name_of(rule), side, side);
    std::printf("%6s %11s %10s %10s %10s %10s %10s\n", "width", "components", "pixels", "to find", "to treat",
                "by pixels", "besides");
    int width = 256;
    for (const double pixel_time : pixel_times) {
        print_level(plane, {width, area, rule}, pixel_time, rounds);
        width /= 2;
    }
}

} // namespace

void print_grain(int rounds) {
    if (!library::linked) {
        std::printf("\nThe library is not linked: what small components cost is not measured.\n");
        return;
    }
    const std::vector<double> plain = pixel_times(any_ratio, rounds);
    for (const std::uint32_t area : {1, 2, 20}) {
        print_levels("noise", area, any_ratio, plain, rounds);
    }
    for (const std::uint32_t area : {1, 20}) {
        print_levels("grain", area, any_ratio, plain, rounds);
    }
    for (const library::Rule &rule : {half, steep}) {
        print_levels("noise", 1, rule, pixel_times(rule, rounds), rounds);
    }
}
