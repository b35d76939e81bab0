// The planes of the benchmark. They are made by whole numbers from fixed seeds, so every machine makes the same ones.
#pragma once

#include <cstdint>
#include <string>
#include <vector>

namespace planes {

struct Plane {
    std::string name;
    int w;
    int h;
    std::vector<std::uint8_t> values;
};

// The names of all kinds, in the order of the tables:
//   natural       several octaves of smooth noise, edges and grain
//   clean         the same without grain
//   noise         every pixel a random byte
//   gradient      a slope from corner to corner
//   flat          one value
//   checkerboard  pixels of two values in turn: components of one pixel
//   corners       the same with eight random values in the place of each: they join at corners alone
//   wires         diagonal lines of one pixel's width in bright tones, which cross, over a dark ground
//   comb          lines of one pixel's width in two values, joined at opposite ends
//   spiral        a line of one pixel's width, wound to the middle
//   tiles         squares of 5 by 5 pixels, each of one random value: components just above the house's least area
const std::vector<std::string> &kinds();

// A plane of one of these kinds, or of one more:
//   grain         natural with four times as much grain: many thousand small components
Plane make(const std::string &kind, int w, int h);

// Random values, of which each section of a width has columns of its own: it is one component.
Plane bands(int width, int w, int h);

// A frame whose intensities are the plane's: the channels lie around them by a hue that changes slowly.
std::vector<std::uint8_t> coloured(const Plane &plane);

} // namespace planes
