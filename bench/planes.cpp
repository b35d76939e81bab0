#include "planes.hpp"

#include <algorithm>
#include <stdexcept>

namespace planes {
namespace {

// A random 32-bit number for each place and seed.
std::uint32_t hash(std::uint32_t x, std::uint32_t y, std::uint32_t seed) {
    std::uint64_t z = (static_cast<std::uint64_t>(x) << 32 | y) + 0x9E3779B97F4A7C15u * (seed + 1);
    z = (z ^ (z >> 30)) * 0xBF58476D1CE4E5B9u;
    z = (z ^ (z >> 27)) * 0x94D049BB133111EBu;
    return static_cast<std::uint32_t>((z ^ (z >> 31)) >> 16);
}

// Where a place lies between two knots, smoothed at both ends: 0 to 1,024.
int smooth(int t, int cell) {
    const std::int64_t u = static_cast<std::int64_t>(t) * 1024 / cell;
    return static_cast<int>(u * u * (3 * 1024 - 2 * u) / (1024 * 1024));
}

// Noise between knots that are a cell apart: 0 to 65,535.
int smooth_noise(int x, int y, int cell, std::uint32_t seed) {
    const int i = x / cell, j = y / cell;
    const std::int64_t s = smooth(x % cell, cell), t = smooth(y % cell, cell);
    const auto knot = [&](int di, int dj) { return static_cast<std::int64_t>(hash(i + di, j + dj, seed) & 0xFFFF); };
    const std::int64_t upper = knot(0, 0) * (1024 - s) + knot(1, 0) * s;
    const std::int64_t lower = knot(0, 1) * (1024 - s) + knot(1, 1) * s;
    return static_cast<int>((upper * (1024 - t) + lower * t) >> 20);
}

// Octaves from 256 pixels to 8, each with half of the weight of the one before: 0 to 65,535.
int octaves(int x, int y, std::uint32_t seed) {
    int sum = 0, weight = 32, weights = 0;
    for (int cell = 256; cell >= 8; cell /= 2) {
        sum += weight * (smooth_noise(x, y, cell, seed + cell) >> 6);
        weights += weight;
        weight /= 2;
    }
    return std::min(65535, sum / weights << 6);
}

// How much brighter or darker the discs and bands that lie here make the picture.
int edges(int x, int y) {
    int step = 0;
    for (int k = 0; k < 14; k++) {
        const int cx = hash(k, 1, 900) % 1200, cy = hash(k, 2, 900) % 1200, r = 20 + hash(k, 3, 900) % 160;
        if ((x - cx) * (x - cx) + (y - cy) * (y - cy) < r * r) {
            step += static_cast<int>(hash(k, 4, 900) % 120) - 60;
        }
    }
    for (int k = 0; k < 4; k++) {
        if ((x * (k + 1) + y * (3 - k / 2) + 97 * k) % 1400 < 18) {
            step += k % 2 == 0 ? 40 : -40;
        }
    }
    return step;
}

int clamp(int value) { return std::max(0, std::min(255, value)); }

int clean(int x, int y) { return clamp(octaves(x, y, 1) * 200 / 65536 + 20 + edges(x, y) / 2); }

// Grain: the sum of three small numbers, so that most of it is near to nothing.
int grain(int x, int y) {
    const std::uint32_t random = hash(x, y, 2);
    return static_cast<int>(random % 5 + random / 5 % 5 + random / 25 % 5) - 6;
}

int natural(int x, int y) { return clamp(clean(x, y) + grain(x, y)); }

// Two values so far apart that the whole plane is kept back, and both halves of the values are entered.
constexpr int dark = 40, bright = 215;

int comb(int x, int y, int h) {
    if (y == 0) {
        return dark;
    }
    return y == h - 1 || x % 2 == 1 ? bright : dark;
}

// Whether a diagonal line of either direction goes through the pixel.
bool on_wire(int x, int y) { return (x + y) % 12 == 0 || (x - y) % 20 == 0; }

// A path that goes round and inward, one pixel wide, with a gap of one pixel between two rounds.
std::vector<std::uint8_t> spiral(int w, int h) {
    std::vector<std::uint8_t> values(static_cast<std::size_t>(w) * h, bright);
    const auto at = [&](int x, int y) -> std::uint8_t & { return values[static_cast<std::size_t>(y) * w + x]; };
    const auto taken = [&](int x, int y) { return x >= 0 && x < w && y >= 0 && y < h && at(x, y) == dark; };
    const auto free = [&](int x, int y, int dx, int dy) {
        const bool inside = x >= 0 && x < w && y >= 0 && y < h;
        return inside && !taken(x, y) && !taken(x + dx, y + dy);
    };
    int x = 0, y = 0, dx = 1, dy = 0;
    at(x, y) = dark;
    for (int turns = 0; turns < 2;) {
        if (free(x + dx, y + dy, dx, dy)) {
            x += dx;
            y += dy;
            at(x, y) = dark;
            turns = 0;
        } else {
            const int turned = dx;
            dx = -dy;
            dy = turned;
            turns++;
        }
    }
    return values;
}

int value_of(const std::string &kind, int x, int y, int w, int h) {
    if (kind == "natural") return natural(x, y);
    if (kind == "clean") return clean(x, y);
    if (kind == "noise") return hash(x, y, 3) & 255;
    if (kind == "gradient") return 255 * (x + y) / std::max(1, w + h - 2);
    if (kind == "flat") return 128;
    if (kind == "checkerboard") return (x + y) % 2 == 0 ? dark : bright;
    if (kind == "corners") return ((x + y) % 2 == 0 ? dark : bright) + hash(x, y, 6) % 8;
    if (kind == "wires") return natural(x, y) / 2 + (on_wire(x, y) ? 128 : 0);
    if (kind == "comb") return comb(x, y, h);
    if (kind == "tiles") return hash(x / 5, y / 5, 4) & 255;
    if (kind == "grain") return clamp(clean(x, y) + 4 * grain(x, y));
    throw std::invalid_argument(kind);
}

} // namespace

const std::vector<std::string> &kinds() {
    static const std::vector<std::string> all{"natural", "clean", "noise", "gradient", "flat", "checkerboard",
                                              "corners", "wires", "comb",  "spiral",   "tiles"};
    return all;
}

Plane make(const std::string &kind, int w, int h) {
    Plane plane{kind, w, h, {}};
    if (kind == "spiral") {
        plane.values = spiral(w, h);
        return plane;
    }
    plane.values.reserve(static_cast<std::size_t>(w) * h);
    for (int y = 0; y < h; y++) {
        for (int x = 0; x < w; x++) {
            plane.values.push_back(static_cast<std::uint8_t>(value_of(kind, x, y, w, h)));
        }
    }
    return plane;
}

Plane bands(int width, int w, int h) {
    Plane plane{"bands", w, h, {}};
    plane.values.reserve(static_cast<std::size_t>(w) * h);
    for (int y = 0; y < h; y++) {
        for (int x = 0; x < w; x++) {
            const int section = x * (256 / width) / w;
            plane.values.push_back(static_cast<std::uint8_t>(section * width + hash(x, y, 3) % width));
        }
    }
    return plane;
}

std::vector<std::uint8_t> coloured(const Plane &plane) {
    std::vector<std::uint8_t> frame;
    frame.reserve(3 * plane.values.size());
    for (int y = 0; y < plane.h; y++) {
        for (int x = 0; x < plane.w; x++) {
            const int value = plane.values[static_cast<std::size_t>(y) * plane.w + x];
            const int room = std::min(value, 255 - value);
            const int hue = (smooth_noise(x, y, 128, 5) * 60 >> 16) - 30;
            const int tint = std::max(-room, std::min(room, hue));
            frame.push_back(static_cast<std::uint8_t>(value + tint));
            frame.push_back(static_cast<std::uint8_t>(value));
            frame.push_back(static_cast<std::uint8_t>(value - tint));
        }
    }
    return frame;
}

} // namespace planes
