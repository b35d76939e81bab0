// The second implementation, with which the benchmark checks what it measures (bench/checker).
#pragma once

#include "library.hpp"

#include <cstddef>
#include <cstdint>

extern "C" {
published::Counts checker_enhance(const std::uint8_t *frame, std::size_t w, std::size_t h, std::uint32_t last_level,
                                  std::uint32_t area, library::Rule rule, std::uint8_t neighbours, std::uint8_t *plane,
                                  std::uint8_t *output);
published::Counts checker_pass(std::uint8_t *plane, std::size_t w, std::size_t h, std::uint8_t a, std::uint8_t b,
                               std::uint32_t area, library::Rule rule, std::uint8_t neighbours);
}
