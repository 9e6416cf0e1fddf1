// The run of `ghs run` in plain C++, written for speed (plain_net.h): the same events, and the same text.
//
// usage: plain_run FILE [--seed S] [--wake all|first] [--print report|trace]
#include "plain_net.h"

static std::string report_text(const Graph &graph, const Net<false> &net) {
    std::string text(size_t(graph.nodes) * 36 + 512, '\0'); // a link's line has 35 bytes at most
    char *to = &text[0];
    uint64_t total = 0;
    const std::vector<bool> is_branch = net.branches();
    for (size_t k = 0; k < graph.keys.size(); ++k) {
        if (!is_branch[k]) continue;
        total += weight_of(graph.keys[k]);
        to = put_link(to, graph.keys[k]);
    }
    static const char *const names[] = {"w ", "\nm connect=", " initiate=", " test=", " accept=", " reject=", " report=",
                                        " changeroot=", "\ns ", " ", "\n"};
    const uint64_t *sent = net.sent;
    const uint64_t numbers[] = {total, sent[0], sent[1], sent[2], sent[3], sent[4], sent[5], sent[6], net.all_sent(), net.bound()};
    for (int k = 0; k < 11; ++k) {
        to = stpcpy(to, names[k]);
        if (k < 10) to = put(to, numbers[k]);
    }
    text.resize(to - text.data());
    return text;
}

int main(int argc, char **argv) {
    uint64_t seed = 1;
    bool first = false, prints_trace = false;
    const char *path = nullptr;
    for (int k = 1; k < argc; ++k) {
        const std::string word = argv[k];
        if (word == "--seed") seed = std::strtoull(argv[++k], nullptr, 10);
        else if (word == "--wake") first = std::string(argv[++k]) == "first";
        else if (word == "--print") prints_trace = std::string(argv[++k]) == "trace";
        else path = argv[k];
    }
    const int file = path != nullptr ? open(path, O_RDONLY) : 0;
    Graph graph;
    if (file < 0 || !read_graph(graph, file)) return 5;
    sort_keys(graph.keys);
    Net<false> net(graph, first, false);
    std::vector<uint32_t> trace;
    if (prints_trace) net.trace = &trace;
    net.run(seed);
    const std::string text = prints_trace ? net.trace_text() : report_text(graph, net);
    return write_all(text.data(), text.data() + text.size()) ? 0 : 5;
}
