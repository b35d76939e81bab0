#include "library.hpp"

#include <array>
#include <cstdlib>

#ifdef WITH_MLHE

#include "mlhe.h"

namespace library {

namespace {

// The benchmark's calls are sound; anything refused ends it.
void accepted(std::int64_t answer) {
    if (answer < 0) {
        std::abort();
    }
}

// What an accepted call counted.
published::Counts counted(std::int64_t answer, const std::size_t *counts) {
    accepted(answer);
    return {counts[MLHE_RETONED], counts[MLHE_KEPT]};
}

std::size_t pixels(int w, int h) { return static_cast<std::size_t>(w) * static_cast<std::size_t>(h); }

// A rule and the number of neighbours, as a call is lent them.
std::array<std::uint16_t, MLHE_PASS_NUMBERS> numbers_of(const Rule &rule, int neighbours) {
    return {rule.code, rule.first, rule.second, rule.segments, static_cast<std::uint16_t>(neighbours)};
}

} // namespace

published::Counts enhance(const std::uint8_t *frame, int w, int h, const Settings &settings, std::uint8_t *plane,
                          Memory &memory, std::uint8_t *output) {
    const std::size_t n = pixels(w, h);
    const auto numbers = numbers_of(settings.rule, settings.neighbours);
    std::size_t counts[MLHE_COUNTS];
    const std::int64_t answer =
        mlhe_enhance(frame, 3 * n, w, h, static_cast<std::uint8_t>(settings.last_level),
                     static_cast<std::uint32_t>(settings.area), numbers.data(), numbers.size(), plane, n,
                     memory.marks.data(), n, memory.queue.data(), n, output, 3 * n, counts, MLHE_COUNTS);
    return counted(answer, counts);
}

published::Counts pass(std::uint8_t *plane, int w, int h, const Pass &pass, Memory &memory) {
    const std::size_t n = pixels(w, h);
    const auto numbers = numbers_of(pass.rule, pass.neighbours);
    std::size_t counts[MLHE_COUNTS];
    const std::int64_t answer =
        mlhe_pass(plane, n, memory.marks.data(), n, memory.queue.data(), n, w, h, static_cast<std::uint8_t>(pass.min),
                  static_cast<std::uint8_t>(pass.max), static_cast<std::uint32_t>(pass.area), numbers.data(),
                  numbers.size(), counts, MLHE_COUNTS);
    return counted(answer, counts);
}

void intensity(const std::uint8_t *frame, int w, int h, std::uint8_t *plane) {
    const std::size_t n = pixels(w, h);
    accepted(mlhe_intensity(frame, 3 * n, w, h, plane, n));
}

void recolour(const std::uint8_t *frame, int w, int h, const std::uint8_t *plane, std::uint8_t *output) {
    const std::size_t n = pixels(w, h);
    accepted(mlhe_recolour(frame, 3 * n, w, h, plane, n, output, 3 * n));
}

} // namespace library

#else

namespace library {

published::Counts enhance(const std::uint8_t *, int, int, const Settings &, std::uint8_t *, Memory &, std::uint8_t *) {
    std::abort();
}

published::Counts pass(std::uint8_t *, int, int, const Pass &, Memory &) { std::abort(); }

void intensity(const std::uint8_t *, int, int, std::uint8_t *) { std::abort(); }

void recolour(const std::uint8_t *, int, int, const std::uint8_t *, std::uint8_t *) { std::abort(); }

} // namespace library

#endif
