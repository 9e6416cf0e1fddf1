// Runs of one network by five protocols that find its minimum spanning tree, and a line of figures for each run.
// bench/peers has the usage; docs/class/COMPARE.md says what the figures mean. Nothing here is proved.
#include "peers_boruvka.h"
#include "peers_flood.h"
#include "peers_gather.h"
#include "peers_ghs.h"
#include "peers_net.h"

struct Options {
    std::string file, trace, wake = "all", print = "figures";
    std::vector<std::string> protocols = {"ghs", "ghs-ask-all", "boruvka", "gather", "flood"};
    uint64_t first_seed = 1, last_seed = 1, width = 0;
    bool in_rounds = false;
};

static std::unique_ptr<Protocol> protocol_of(const std::string &name, const Graph &graph) {
    if (name == "ghs") return std::make_unique<Ghs>(graph, false);
    if (name == "ghs-ask-all") return std::make_unique<Ghs>(graph, true);
    if (name == "boruvka") return std::make_unique<Boruvka>(graph);
    if (name == "gather") return std::make_unique<Gather>(graph);
    if (name == "flood") return std::make_unique<Flood>(graph);
    fail(name + ": no such protocol");
}

static uint64_t number(const std::string &text) {
    char *end = nullptr;
    const uint64_t value = std::strtoull(text.c_str(), &end, 10);
    if (text.empty() || *end) fail(text + ": not a number");
    return value;
}

static Options options_of(int count, char **words) {
    Options options;
    for (int at = 1; at < count; ++at) {
        const std::string word = words[at];
        const auto value = [&] { return ++at < count ? std::string(words[at]) : (fail(word + ": no value"), ""); };
        if (word == "--protocol") options.protocols = {value()};
        else if (word == "--wake") options.wake = value();
        else if (word == "--rounds") options.in_rounds = true;
        else if (word == "--width") options.width = number(value());
        else if (word == "--trace") options.trace = value();
        else if (word == "--print") options.print = value();
        else if (word == "--seeds") {
            const std::string seeds = value();
            const size_t dots = seeds.find("..");
            options.first_seed = number(seeds.substr(0, dots));
            options.last_seed = dots == std::string::npos ? options.first_seed : number(seeds.substr(dots + 2));
        } else if (word[0] != '-' && options.file.empty()) options.file = word;
        else fail(word + ": unexpected");
    }
    if (options.file.empty()) fail("no file");
    if (options.wake != "all" && options.wake != "first") fail("--wake is all or first");
    if (options.print != "figures" && options.print != "branches") fail("--print is figures or branches");
    if (options.width > 0 && !options.in_rounds) fail("--width asks for --rounds");
    return options;
}

// The weight of the links that are Branch at both ends, and whether the Branch ports are exactly the forest's.
static uint64_t weight_of(const Graph &graph, const Protocol &protocol, bool &minimum) {
    uint64_t weight = 0;
    minimum = true;
    for (Node node = 1; node <= graph.nodes; ++node)
        for (uint32_t at = 0; at < graph.degree(node); ++at) {
            const Port &port = graph.ports[node][at];
            const bool branch = protocol.branch(node, at);
            minimum &= branch == bool(graph.in_forest[port.link]);
            if (branch && node < port.far && protocol.branch(port.far, port.far_port)) weight += graph.links[port.link].weight;
        }
    return weight;
}

static void run(const Options &options, const Graph &graph, const std::string &name, uint64_t seed) {
    const std::unique_ptr<Protocol> protocol = protocol_of(name, graph);
    Net net(graph, *protocol, seed);
    const bool all_wake = options.wake == "all";
    bool ended;
    std::string schedule = "seeded", rounds, width;
    if (!options.trace.empty()) {
        schedule = "trace";
        ended = net.play(options.trace);
    } else if (options.in_rounds) {
        schedule = "rounds";
        net.run_in_rounds(all_wake, options.width);
        ended = protocol->ended();
        rounds = std::to_string(net.account.rounds);
        width = options.width > 0 ? std::to_string(options.width) : "";
    } else {
        net.run_by_seed(all_wake);
        ended = protocol->ended();
    }
    std::string kinds;
    for (size_t kind = 0; kind < protocol->kinds().size(); ++kind)
        kinds += (kind ? " " : "") + std::string(protocol->kinds()[kind]) + "=" + std::to_string(net.account.kinds[kind]);
    bool minimum;
    const uint64_t weight = weight_of(graph, *protocol, minimum);
    const Account &account = net.account;
    std::printf("%llu,%s,%s,%s,%u,%zu,%llu,%llu,%s,%llu,%llu,%llu,%s,%s,%llu,%s,%s\n", (unsigned long long)seed,
                schedule.c_str(), name.c_str(), options.wake.c_str(), graph.nodes, graph.links.size(),
                (unsigned long long)account.events, (unsigned long long)account.sent, kinds.c_str(),
                (unsigned long long)account.requeued, (unsigned long long)account.longest, (unsigned long long)account.bits,
                width.c_str(), rounds.c_str(), (unsigned long long)weight, minimum ? "minimum" : "other",
                ended ? "halted" : "stopped");
    if (options.print == "branches")
        for (Node node = 1; node <= graph.nodes; ++node)
            for (uint32_t at = 0; at < graph.degree(node); ++at)
                if (protocol->branch(node, at)) {
                    const Port &port = graph.ports[node][at];
                    std::printf("b %u %u %llu\n", node, port.far, (unsigned long long)graph.links[port.link].weight);
                }
    std::fflush(stdout);
}

int main(int count, char **words) {
    const Options options = options_of(count, words);
    const Graph graph = read_graph(options.file);
    std::printf("seed,schedule,protocol,wake,nodes,links,events,sent,kinds,requeued,longest,bits,width,rounds,weight,tree,end\n");
    for (const std::string &name : options.protocols)
        for (uint64_t seed = options.first_seed; seed <= options.last_seed; ++seed) run(options, graph, name, seed);
}
