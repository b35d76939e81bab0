// Algorithms 1 to 6 of the published account, function by function and under its names: a component is a vector of
// pixels, components are found with a first-in first-out queue, and the recursion goes by components. Only the
// roundings are those of the requirements: to the nearest, halves upward, in exact whole numbers. With eight neighbours
// the four at the corners are looked at after the other four, and nothing else differs.

#include "published.hpp"

#include <algorithm>
#include <numeric>
#include <queue>

namespace published {
namespace {

// A set of pixels; a pixel is its place in reading order.
using Set = std::vector<int>;

// x / y to the nearest whole number, halves upward.
std::int64_t rounded(std::int64_t x, std::int64_t y) { return (2 * x + y) / (2 * y); }

// The image under work, and which pixels are in the set that GetConnectedComponents takes apart.
class Image {
  public:
    Image(std::uint8_t *values, int w, int h, const Parameters &parameters)
        : I(values), w(w), h(h), parameters(parameters), member(static_cast<std::size_t>(w) * h, 0) {}

    // Algorithm 2.
    void RecursiveHistogramEqualization(const Set &S, int min, int max) {
        HistogramEqualization(S, min, max);
        int level = 0;
        while (256 >> level != max - min + 1) {
            level++;
        }
        if (level + 1 > parameters.last_level) {
            return;
        }
        const int med = (min + max) / 2;
        ProcessLevelSet(S, min, med);
        ProcessLevelSet(S, med + 1, max);
    }

    // Algorithm 3.
    void ProcessLevelSet(const Set &S, int min, int max) {
        const Set A = LevelSet(S, min, max);
        for (const Set &component : GetConnectedComponents(A)) {
            if (component.size() >= parameters.area) {
                RecursiveHistogramEqualization(component, min, max);
            }
        }
    }

    // Algorithm 3, with Algorithm 5 in the place of the recursion.
    void EqualizeLevelSet(const Set &S, int min, int max) {
        const Set A = LevelSet(S, min, max);
        for (const Set &component : GetConnectedComponents(A)) {
            if (component.size() >= parameters.area) {
                HistogramEqualization(component, min, max);
            }
        }
    }

    // The whole image domain.
    Set Domain() const {
        Set domain(member.size());
        std::iota(domain.begin(), domain.end(), 0);
        return domain;
    }

    Counts Counted() const { return counts; }

  private:
    Set LevelSet(const Set &S, int min, int max) const {
        Set A;
        for (const int p : S) {
            if (min <= I[p] && I[p] <= max) {
                A.push_back(p);
            }
        }
        return A;
    }

    std::vector<Set> GetConnectedComponents(const Set &A) {
        return parameters.neighbours == 8 ? GetConnectedComponentsBy<8>(A) : GetConnectedComponentsBy<4>(A);
    }

    // Algorithm 4, by so many neighbours.
    template <int neighbours> std::vector<Set> GetConnectedComponentsBy(const Set &A) {
        std::vector<Set> components;
        for (const int p : A) {
            member[p] = 1;
        }
        for (const int first : A) {
            if (!member[first]) {
                continue;
            }
            Set component;
            std::queue<int> F;
            const auto add = [&](int p) {
                if (member[p]) {
                    member[p] = 0;
                    F.push(p);
                }
            };
            add(first);
            while (!F.empty()) {
                const int p = F.front();
                F.pop();
                component.push_back(p);
                const int x = p % w, y = p / w;
                if (x > 0) add(p - 1);
                if (x + 1 < w) add(p + 1);
                if (y > 0) add(p - w);
                if (y + 1 < h) add(p + w);
                if constexpr (neighbours == 8) {
                    if (x > 0 && y > 0) add(p - w - 1);
                    if (x + 1 < w && y > 0) add(p - w + 1);
                    if (x > 0 && y + 1 < h) add(p + w - 1);
                    if (x + 1 < w && y + 1 < h) add(p + w + 1);
                }
            }
            components.push_back(std::move(component));
        }
        return components;
    }

    // Algorithm 5.
    void HistogramEqualization(const Set &S, int min, int max) {
        std::int64_t H[256] = {0};
        int least = 255, greatest = 0;
        for (const int p : S) {
            const int value = I[p];
            H[value]++;
            least = std::min(least, value);
            greatest = std::max(greatest, value);
        }
        const std::int64_t m = static_cast<std::int64_t>(S.size());
        std::uint8_t tone[256];
        std::int64_t c = 0;
        for (int value = min; value <= max; value++) {
            c += H[value];
            tone[value] = static_cast<std::uint8_t>(min + rounded((max - min) * c, m));
        }
        const int range = greatest - least;
        const int new_range = tone[greatest] - tone[least];
        if (range == 0 || 100 * new_range > parameters.high * range || 100 * new_range < parameters.low * range) {
            counts.kept++;
            return;
        }
        for (const int p : S) {
            I[p] = tone[I[p]];
        }
        counts.retoned++;
    }

    std::uint8_t *I;
    int w;
    int h;
    Parameters parameters;
    std::vector<std::uint8_t> member;
    Counts counts{0, 0};
};

// Line 1 of Algorithm 1.
std::uint8_t Intensity(const std::uint8_t *colour) {
    return static_cast<std::uint8_t>(rounded(colour[0] + colour[1] + colour[2], 3));
}

// Algorithm 6.
void GetColorImage(const std::uint8_t *frame, std::size_t n, const std::uint8_t *plane, std::uint8_t *output) {
    for (std::size_t p = 0; p < n; p++) {
        const std::uint8_t *colour = frame + 3 * p;
        const int I = Intensity(colour);
        const int J = plane[p];
        const int M = std::max(colour[0], std::max(colour[1], colour[2]));
        for (int channel = 0; channel < 3; channel++) {
            const int C = colour[channel];
            const std::int64_t value = I == 0 ? 0 : J * M <= 255 * I ? rounded(C * J, I) : rounded(255 * C, M);
            output[3 * p + channel] = static_cast<std::uint8_t>(value);
        }
    }
}

} // namespace

Counts enhance(const std::uint8_t *frame, int w, int h, const Parameters &parameters, std::uint8_t *plane,
               std::uint8_t *output) {
    const std::size_t n = static_cast<std::size_t>(w) * h;
    for (std::size_t p = 0; p < n; p++) {
        plane[p] = Intensity(frame + 3 * p);
    }
    Image image(plane, w, h, parameters);
    image.RecursiveHistogramEqualization(image.Domain(), 0, 255);
    GetColorImage(frame, n, plane, output);
    return image.Counted();
}

Counts pass(std::uint8_t *plane, int w, int h, int min, int max, const Parameters &parameters) {
    Image image(plane, w, h, parameters);
    image.EqualizeLevelSet(image.Domain(), min, max);
    return image.Counted();
}

} // namespace published
