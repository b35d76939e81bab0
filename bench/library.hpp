// The project's library as the benchmark calls it. library.cpp is the one place that knows its C functions; without
// WITH_MLHE nothing is linked and the published structure is measured alone.
#pragma once

#include "published.hpp"

#include <cstdint>
#include <vector>

namespace library {

#ifdef WITH_MLHE
constexpr bool linked = true;
#else
constexpr bool linked = false;
#endif

// The memory that a call is lent beside plane and output: n bytes of marks and n places of queue, 5 × n bytes in all.
struct Memory {
    std::vector<std::uint8_t> marks;
    std::vector<std::uint32_t> queue;

    explicit Memory(std::size_t n) : marks(n), queue(n) {}
};

// A tone rule by its numbers: 0, low, high and 0 for the plain rule; 1, the clip k, 0 and 0 for the limited rule; 2,
// smin, smax and the segments for the affine rule.
struct Rule {
    std::uint8_t code;
    std::uint16_t first;
    std::uint16_t second;
    std::uint8_t segments;
};

constexpr Rule plain(int low, int high) {
    return {0, static_cast<std::uint16_t>(low), static_cast<std::uint16_t>(high), 0};
}

constexpr Rule limited(int k) { return {1, static_cast<std::uint16_t>(k), 0, 0}; }

constexpr Rule affine(int segments, int smin, int smax) {
    return {2, static_cast<std::uint16_t>(smin), static_cast<std::uint16_t>(smax), static_cast<std::uint8_t>(segments)};
}

inline const char *name_of(const Rule &rule) {
    const char *const names[] = {"plain", "limited", "affine"};
    return names[rule.code];
}

// The settings of an enhancement. The number of neighbours is 4 or 8.
struct Settings {
    int last_level;
    std::size_t area;
    Rule rule;
    int neighbours;
};

constexpr Settings settings_of(const published::Parameters &parameters) {
    return {parameters.last_level, parameters.area, plain(parameters.low, parameters.high), parameters.neighbours};
}

// A pass over [min, max]. The number of neighbours is 4 or 8.
struct Pass {
    int min;
    int max;
    std::size_t area;
    Rule rule;
    int neighbours;
};

// As published::enhance, with any rule.
published::Counts enhance(const std::uint8_t *frame, int w, int h, const Settings &settings, std::uint8_t *plane,
                          Memory &memory, std::uint8_t *output);

// As published::pass, with any rule.
published::Counts pass(std::uint8_t *plane, int w, int h, const Pass &pass, Memory &memory);

// What an enhancement has before and after its passes: the frame's intensities, and its colours from a plane.
void intensity(const std::uint8_t *frame, int w, int h, std::uint8_t *plane);
void recolour(const std::uint8_t *frame, int w, int h, const std::uint8_t *plane, std::uint8_t *output);

} // namespace library
