// Holds the published structure against stored cases of the second implementation: of the files CASES.in and CASES.out
// all accepted passes and enhancements with the plain rule. The format is described in reference/src/cases.rs.
//
//   verify CASES.in CASES.out

#include "published.hpp"

#include <cstdio>
#include <fstream>
#include <iterator>
#include <string>
#include <vector>

namespace {

using Bytes = std::vector<std::uint8_t>;

// The length of a case's head.
constexpr std::size_t head = 38;

Bytes contents(const char *name) {
    std::ifstream file(name, std::ios::binary);
    return Bytes(std::istreambuf_iterator<char>(file), std::istreambuf_iterator<char>());
}

// The number at a place of a case's head, low byte first.
std::uint32_t number(const Bytes &file, std::size_t at, int size) {
    std::uint32_t value = 0;
    for (int i = size - 1; i >= 0; i--) {
        value = 256 * value + file.at(at + i);
    }
    return value;
}

std::string hex(const Bytes &bytes) {
    std::string text;
    for (const std::uint8_t byte : bytes) {
        text += "0123456789abcdef"[byte / 16];
        text += "0123456789abcdef"[byte % 16];
    }
    return text;
}

// The counts as a line begins with them.
std::string begun(const published::Counts &counts) {
    return "+" + std::to_string(counts.retoned) + " " + std::to_string(counts.kept);
}

// The line that answers the case at a place.
std::string answer(const Bytes &file, std::size_t at, std::size_t bytes_end, std::size_t plane_end) {
    const int kind = file[at];
    const int w = static_cast<int>(number(file, at + 20, 4)), h = static_cast<int>(number(file, at + 24, 4));
    const published::Parameters parameters{file[at + 12], number(file, at + 8, 4),
                                           static_cast<int>(number(file, at + 4, 2)),
                                           static_cast<int>(number(file, at + 6, 2)), file[at + 37]};
    Bytes plane(file.begin() + bytes_end, file.begin() + plane_end);
    if (kind == 1) {
        const published::Counts counts = published::pass(plane.data(), w, h, file[at + 1], file[at + 2], parameters);
        return begun(counts) + " " + hex(plane) + " 0";
    }
    Bytes output(number(file, at + 18, 2), 170);
    const published::Counts counts =
        published::enhance(&file[at + head], w, h, parameters, plane.data(), output.data());
    return begun(counts) + " " + hex(plane) + " " + hex(output) + " 0";
}

} // namespace

int main(int argc, char **argv) {
    if (argc != 3) {
        std::fprintf(stderr, "%s CASES.in CASES.out\n", argv[0]);
        return 2;
    }
    const Bytes file = contents(argv[1]);
    std::ifstream lines(argv[2]);
    std::string line;
    std::size_t at = 0;
    int compared = 0, with_eight = 0;
    while (at < file.size() && std::getline(lines, line)) {
        const std::size_t bytes_end = at + head + number(file, at + 32, 2);
        const std::size_t plane_end = bytes_end + number(file, at + 34, 2);
        const bool ours = file[at] == 1 || file[at] == 3;
        const bool plain = file[at + 3] == 0, whole_plane_given = file[at + 13] == 0;
        if (ours && plain && whole_plane_given && line[0] == '+') {
            if (answer(file, at, bytes_end, plane_end) != line) {
                std::printf("%s: the case at byte %zu differs\n", argv[1], at);
                return 1;
            }
            compared++;
            with_eight += file[at + 37] == 8;
        }
        at = plane_end;
    }
    std::printf("%s: %d cases agree, %d of them with eight neighbours\n", argv[1], compared, with_eight);
    return at == file.size() && compared > with_eight && with_eight > 0 ? 0 : 1;
}
