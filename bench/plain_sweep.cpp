// The runs of `ghs sweep` in plain C++, written for speed (plain_net.h): of each seed the columns of the sweep that stand in
// the first line.
//
// usage: plain_sweep FILE --seeds FIRST..LAST [--wake all|first] [--unmeasured]
//
// With --unmeasured it only plays the runs, without their lengths, and prints nothing: what a sweep takes beside its runs.
#include "plain_net.h"
#include <cstdio>

template <bool MEASURED> static void sweep(const Graph &graph, bool first, uint64_t from, uint64_t to) {
    Net<MEASURED> net(graph, first, true);
    if (!MEASURED) {
        for (uint64_t seed = from; seed <= to; ++seed) net.run(seed);
        return;
    }
    std::printf("seed,nodes,links,events,sent,connect,initiate,test,accept,reject,report,changeroot,requeued,queued,bound,weight,chain,bits,"
                "longest\n");
    for (uint64_t seed = from; seed <= to; ++seed) {
        net.run(seed);
        uint64_t weight = 0;
        const std::vector<bool> is_branch = net.branches();
        for (size_t k = 0; k < graph.keys.size(); ++k)
            if (is_branch[k]) weight += weight_of(graph.keys[k]);
        const uint64_t *sent = net.sent;
        const uint64_t numbers[] = {seed, graph.nodes, graph.keys.size(), net.events, net.all_sent(), sent[0], sent[1], sent[2], sent[3],
                                    sent[4], sent[5], sent[6], net.requeued, net.queued, net.bound(), weight, net.lengths.chain,
                                    net.lengths.bits, net.lengths.longest};
        char line[512], *at = line;
        for (const uint64_t number : numbers) at = put(at, number), *at++ = ',';
        at[-1] = '\n';
        std::fwrite(line, 1, at - line, stdout);
    }
}

int main(int argc, char **argv) {
    uint64_t from = 1, to = 1;
    bool first = false, measured = true;
    const char *path = nullptr;
    for (int k = 1; k < argc; ++k) {
        const std::string word = argv[k];
        if (word == "--seeds") {
            char *behind;
            from = std::strtoull(argv[++k], &behind, 10);
            to = std::strtoull(behind + 2, nullptr, 10);
        } else if (word == "--wake") {
            first = std::string(argv[++k]) == "first";
        } else if (word == "--unmeasured") {
            measured = false;
        } else {
            path = argv[k];
        }
    }
    const int file = path != nullptr ? open(path, O_RDONLY) : 0;
    Graph graph;
    if (file < 0 || !read_graph(graph, file)) return 5;
    sort_keys(graph.keys);
    if (measured) sweep<true>(graph, first, from, to);
    else sweep<false>(graph, first, from, to);
    return 0;
}
