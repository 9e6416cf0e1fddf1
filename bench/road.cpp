// A road-like graph in the .gr format: nodes in rows, links between near ones, each link as two arcs or as one.
// The same words give the same text: road NODES LINKS ORDER
// ORDER: pairs (a link's arcs side by side), nodes (a node's arcs together), shuffled, apart (all arcs there before all
// arcs back), or one (an arc a link, a node's arcs together).
#include <algorithm>
#include <cstdint>
#include <cstdio>
#include <cstdlib>
#include <string>
#include <utility>
#include <vector>

static uint64_t state = 0x9e3779b97f4a7c15ull;

// A word of a fixed sequence.
static uint64_t word() {
    state ^= state << 13;
    state ^= state >> 7;
    state ^= state << 17;
    return state;
}

struct Arc {
    uint32_t from, to, weight;
};

int main(int argc, char **argv) {
    const std::string order = argc > 3 ? argv[3] : "";
    if (order != "pairs" && order != "nodes" && order != "shuffled" && order != "apart" && order != "one") {
        std::fprintf(stderr, "usage: road NODES LINKS pairs|nodes|shuffled|apart|one\n");
        return 2;
    }
    const uint32_t nodes = std::strtoul(argv[1], nullptr, 10);
    const uint64_t links = std::strtoull(argv[2], nullptr, 10);
    const bool one = order == "one";
    uint32_t width = 1;
    while (uint64_t(width) * width < nodes) ++width;
    std::vector<Arc> arcs; // each link's arc there, and then its arc back
    uint64_t made = 0;
    auto link = [&](uint32_t u, uint32_t v) {
        const uint32_t weight = 1 + word() % 30000;
        arcs.push_back({u, v, weight});
        if (!one) arcs.push_back({v, u, weight});
        ++made;
    };
    // Each node but the first leads to the one beside it or to the one above it.
    std::vector<bool> beside(nodes + 1);
    for (uint32_t v = 2; v <= nodes; ++v) {
        const bool has_above = v > width;
        beside[v] = !has_above || word() % 2;
        link(v, beside[v] ? v - 1 : v - width);
    }
    // The others go to near nodes, one distance after another.
    const uint32_t distances[] = {0, width + 1, width - 1, 2, 2 * width, width + 2, width - 2, 3, 3 * width, 4};
    for (uint32_t d : distances) {
        for (uint32_t v = 2; v <= nodes && made < links; ++v) {
            if (d == 0) {
                // the one of beside and above that isn't linked yet
                if (v > width && (one || word() % 3 == 0)) link(v, beside[v] ? v - width : v - 1);
            } else if (v > d && (one || links > 4u * nodes - nodes / 8 || word() % 4 != 0)) {
                link(v, v - d);
            }
        }
    }
    if (made != links) {
        std::fprintf(stderr, "road: %llu links at most\n", (unsigned long long)made);
        return 1;
    }
    if (order != "pairs") {
        std::stable_sort(arcs.begin(), arcs.end(), [](const Arc &a, const Arc &b) { return a.from < b.from; });
    }
    if (order == "apart") {
        std::stable_partition(arcs.begin(), arcs.end(), [](const Arc &arc) { return arc.from > arc.to; });
    }
    if (order == "shuffled") {
        for (size_t k = arcs.size(); k > 1; --k) std::swap(arcs[k - 1], arcs[word() % k]);
    }

    std::string text = "c A road-like graph, made by bench/road.cpp\np sp " + std::to_string(nodes) + " " +
                       std::to_string(arcs.size()) + "\n";
    for (const Arc &arc : arcs) {
        text += "a " + std::to_string(arc.from) + " " + std::to_string(arc.to) + " " + std::to_string(arc.weight) + "\n";
        if (text.size() > (1 << 20)) {
            std::fwrite(text.data(), 1, text.size(), stdout);
            text.clear();
        }
    }
    std::fwrite(text.data(), 1, text.size(), stdout);
    return 0;
}
