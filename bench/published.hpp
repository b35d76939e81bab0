// The published structure of morpho-local histogram equalisation, as its reader would write it in C++: what the
// library's speed is measured against.
#pragma once

#include <cstddef>
#include <cstdint>
#include <vector>

namespace published {

// The parameters of the published method with the plain rule: the last level, the least area of a component, the least
// and greatest ratio of the ranges in hundredths, and the number of neighbours, 4 or 8. With 8, pixels that touch at a
// corner belong together.
struct Parameters {
    int last_level;
    std::size_t area;
    int low;
    int high;
    int neighbours;
};

// The house setting.
constexpr Parameters house{7, 20, 80, 300, 4};

// How many components with at least the least area were retoned, and how many were kept back.
struct Counts {
    std::uint64_t retoned;
    std::uint64_t kept;
};

inline bool operator==(const Counts &one, const Counts &other) {
    return one.retoned == other.retoned && one.kept == other.kept;
}

inline Counts operator+(const Counts &one, const Counts &other) {
    return {one.retoned + other.retoned, one.kept + other.kept};
}

// Algorithm 1: enhances a frame of w by h pixels with three bytes each. Leaves the new intensities in the plane (w * h
// bytes) and the colours in the output (3 * w * h bytes). Answers how often a component was retoned or kept back.
Counts enhance(const std::uint8_t *frame, int w, int h, const Parameters &parameters, std::uint8_t *plane,
               std::uint8_t *output);

// Algorithm 3 without the recursion: retones the components of [min, max] in the plane. Answers how many were retoned
// and kept back.
Counts pass(std::uint8_t *plane, int w, int h, int min, int max, const Parameters &parameters);

} // namespace published
