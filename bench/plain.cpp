// The same job in plain C++, written for speed: the file is read in blocks, digits are taken by hand, keys are packed
// into numbers for std::sort, classes are joined by union-find, and the text is put together by hand. It trusts its
// input: nothing of the format is checked.
#include "plain.h"
#include <memory>

int main(int argc, char **argv) {
    const int file = argc > 1 ? open(argv[1], O_RDONLY) : 0;
    Graph graph;
    if (file < 0 || !read_graph(graph, file)) return 5;
    std::sort(graph.keys.begin(), graph.keys.end());

    std::vector<uint32_t> up(graph.nodes + 1);
    for (uint32_t node = 0; node <= graph.nodes; ++node) up[node] = node;
    const std::unique_ptr<char[]> text(new char[size_t(graph.nodes) * 36 + 32]); // a line has 35 bytes at most
    char *to = text.get();
    uint64_t total = 0;
    uint32_t missing = graph.nodes - 1;
    for (const Key key : graph.keys) {
        if (missing == 0) break;
        const uint32_t a = find(up, low_of(key)), b = find(up, high_of(key));
        if (a == b) continue;
        up[std::max(a, b)] = std::min(a, b);
        --missing;
        total += weight_of(key);
        to = put_link(to, key);
    }
    *to++ = 'w', *to++ = ' ';
    to = put(to, total), *to++ = '\n';
    return write_all(text.get(), to) ? 0 : 5;
}
