// A network of the comparison: links in key order, each node's ports, and the forest of some links. Keys are (weight,
// smaller end, larger end); a link goes by its place in their order, so places are compared in place of keys. The text
// is trusted: nothing of the format is checked.
#pragma once
#include <algorithm>
#include <cstdint>
#include <cstdio>
#include <cstdlib>
#include <numeric>
#include <string>
#include <tuple>
#include <vector>

using Node = uint32_t;  // from 1 on
using Place = uint32_t; // a link, by its place in key order

const Place NO_LINK = UINT32_MAX; // in place of a key: there is none, or it is infinite

[[noreturn]] inline void fail(const std::string &text) {
    std::fprintf(stderr, "peers: %s\n", text.c_str());
    std::exit(2);
}

struct Link {
    uint64_t weight;
    Node low, high;
    bool operator<(const Link &other) const {
        return std::tie(weight, low, high) < std::tie(other.weight, other.low, other.high);
    }
    bool operator==(const Link &other) const {
        return weight == other.weight && low == other.low && high == other.high;
    }
};

struct Port {
    Place link;
    Node far;
    uint32_t far_port;
};

// How many bits the numbers 0 to `most` need.
inline uint64_t bits_for(uint64_t most) {
    uint64_t bits = 1;
    while (most >>= 1) ++bits;
    return bits;
}

struct Classes {
    std::vector<Node> up;
    explicit Classes(Node nodes) : up(nodes + 1) { std::iota(up.begin(), up.end(), 0); }
    Node find(Node node) {
        while (up[node] != node) node = up[node] = up[up[node]];
        return node;
    }
    // The least node of a class stands for it, so that it is the component's root in the end.
    bool join(Node one, Node other) {
        one = find(one), other = find(other);
        if (one == other) return false;
        up[std::max(one, other)] = std::min(one, other);
        return true;
    }
};

struct Graph {
    Node nodes = 0;
    std::vector<Link> links;              // rising
    std::vector<std::vector<Port>> ports; // of each node, in key order
    std::vector<char> in_forest;          // by link
    std::vector<Node> root;               // the least node of each node's component
    uint64_t node_bits = 0, key_bits = 0, weight_bits = 0, level_bits = 0, count_bits = 0;

    // Equal keys are one link.
    Graph(Node count, std::vector<Link> given) : nodes(count), links(std::move(given)), ports(count + 1) {
        std::sort(links.begin(), links.end());
        links.erase(std::unique(links.begin(), links.end()), links.end());
        Classes classes(nodes);
        for (Place place = 0; place < links.size(); ++place) {
            const Link &link = links[place];
            const uint32_t low_port = ports[link.low].size(), high_port = ports[link.high].size();
            ports[link.low].push_back({place, link.high, high_port});
            ports[link.high].push_back({place, link.low, low_port});
            in_forest.push_back(classes.join(link.low, link.high));
        }
        for (Node node = 0; node <= nodes; ++node) root.push_back(classes.find(node));
        node_bits = bits_for(nodes);
        weight_bits = bits_for(links.empty() ? 0 : links.back().weight);
        key_bits = 2 * node_bits + weight_bits;
        level_bits = bits_for(bits_for(nodes) - 1); // levels 0 to the whole part of log2 N
        count_bits = bits_for(links.size());
    }

    uint32_t degree(Node node) const { return ports[node].size(); }

    uint64_t components() const {
        uint64_t count = 0;
        for (Node node = 1; node <= nodes; ++node) count += root[node] == node;
        return count;
    }

    // The minimum spanning forest of these links alone: what is heaviest on a cycle of theirs is left out.
    std::vector<Place> forest(std::vector<Place> some) const {
        std::sort(some.begin(), some.end());
        some.erase(std::unique(some.begin(), some.end()), some.end());
        static std::vector<Node> up; // kept, since only the ends of these links are touched
        if (up.size() <= nodes) up.resize(nodes + 1);
        for (Place place : some) up[links[place].low] = links[place].low, up[links[place].high] = links[place].high;
        const auto find = [](Node node) {
            while (up[node] != node) node = up[node] = up[up[node]];
            return node;
        };
        std::vector<Place> kept;
        for (Place place : some) {
            const Node low = find(links[place].low), high = find(links[place].high);
            if (low != high) up[low] = high, kept.push_back(place);
        }
        return kept;
    }
};

inline Graph read_graph(const std::string &path) {
    std::FILE *file = std::fopen(path.c_str(), "r");
    if (!file) fail(path + ": can't be opened");
    Node nodes = 0;
    std::vector<Link> links;
    char line[256];
    while (std::fgets(line, sizeof line, file)) {
        unsigned long long u, v, weight;
        if (std::sscanf(line, " p sp %llu", &u) == 1) nodes = u;
        else if (std::sscanf(line, " a %llu %llu %llu", &u, &v, &weight) == 3 && u != v)
            links.push_back({weight, Node(std::min(u, v)), Node(std::max(u, v))});
    }
    std::fclose(file);
    if (nodes == 0) fail(path + ": no problem line");
    return Graph(nodes, std::move(links));
}
