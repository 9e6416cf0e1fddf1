// The same job as plain.cpp with what else makes it faster where weights are small numbers, as in road files: digits are
// taken eight at a time, a link that stands twice side by side is put once, and links are sorted by one count of their
// weights, those of one weight among each other only when their turn comes. It takes 4 bytes for each number up to the
// greatest weight. It trusts its input: nothing of the format is checked.
#include "plain.h"
#include <memory>

// The value of the digits at the front of a word, of which there are at most eight.
static inline uint32_t joined(uint64_t word, unsigned count) {
    word <<= 8 * (8 - count);
    word = (word & 0x0f0f0f0f0f0f0f0full) * 2561 >> 8;
    word = (word & 0x00ff00ff00ff00ffull) * 6553601 >> 16;
    return (word & 0x0000ffff0000ffffull) * 42949672960001ull >> 32;
}

// The number at the front, and the byte behind it is passed. Eight bytes may be read.
static inline uint32_t number_here(const char *&at) {
    uint64_t word;
    std::memcpy(&word, at, 8);
    const uint64_t others = (word ^ 0x3030303030303030ull) + 0x7676767676767676ull & 0x8080808080808080ull;
    if (others == 0) {
        const uint32_t value = number(at);
        ++at;
        return value;
    }
    const unsigned count = __builtin_ctzll(others) >> 3;
    at += count + 1;
    return joined(word, count);
}

struct Links {
    uint32_t nodes = 0, greatest = 0;
    std::vector<uint32_t> weights;
    std::vector<uint64_t> ends; // the smaller one in the high half
};

static void take_links(Links &links, const char *at, const char *end) {
    while (at < end) {
        if (*at == 'a') {
            at += 2;
            const uint32_t u = number_here(at), v = number_here(at), weight = number_here(at);
            const uint64_t both = uint64_t(std::min(u, v)) << 32 | std::max(u, v);
            if (u != v && (links.ends.empty() || links.ends.back() != both || links.weights.back() != weight)) {
                links.ends.push_back(both);
                links.weights.push_back(weight);
                links.greatest = std::max(links.greatest, weight);
            }
            if (at[-1] == '\n') continue;
        } else if (*at == 'p') {
            links.nodes = number(at);
        }
        while (*at != '\n') ++at;
        ++at;
    }
}

int main(int argc, char **argv) {
    const int file = argc > 1 ? open(argv[1], O_RDONLY) : 0;
    if (file < 0) return 5;
    Links links;
    std::vector<char> room((1 << 17) + 8);
    for (size_t held = 0;;) {
        const ssize_t count = read(file, room.data() + held, room.size() - held - 9);
        if (count < 0) return 5;
        size_t size = held + count;
        if (count == 0 && size > 0) room[size++] = '\n';
        const char *start = room.data();
        const void *last = memrchr(start, '\n', size);
        const size_t whole = last ? static_cast<const char *>(last) + 1 - start : 0;
        take_links(links, start, start + whole);
        held = size - whole;
        std::memmove(room.data(), start + whole, held);
        if (count == 0) break;
    }

    std::vector<uint32_t> begins(size_t(links.greatest) + 2);
    for (const uint32_t weight : links.weights) ++begins[weight + 1];
    for (size_t weight = 1; weight < begins.size(); ++weight) begins[weight] += begins[weight - 1];
    std::vector<uint64_t> sorted(links.ends.size());
    std::vector<uint32_t> next(begins.begin(), begins.end() - 1);
    for (size_t k = 0; k < sorted.size(); ++k) sorted[next[links.weights[k]]++] = links.ends[k];

    std::vector<uint32_t> up(links.nodes + 1);
    for (uint32_t node = 0; node <= links.nodes; ++node) up[node] = node;
    const std::unique_ptr<char[]> text(new char[size_t(links.nodes) * 36 + 32]);
    char *to = text.get();
    uint64_t total = 0;
    uint32_t missing = links.nodes - 1;
    for (uint32_t weight = 0; weight <= links.greatest && missing > 0; ++weight) {
        std::sort(sorted.begin() + begins[weight], sorted.begin() + begins[weight + 1]);
        for (size_t k = begins[weight]; k < begins[weight + 1] && missing > 0; ++k) {
            const uint32_t a = find(up, sorted[k] >> 32), b = find(up, uint32_t(sorted[k]));
            if (a == b) continue;
            up[std::max(a, b)] = std::min(a, b);
            --missing;
            total += weight;
            to = put_link(to, Key(weight) << 64 | sorted[k]);
        }
    }
    *to++ = 'w', *to++ = ' ';
    to = put(to, total), *to++ = '\n';
    return write_all(text.get(), to) ? 0 : 5;
}
