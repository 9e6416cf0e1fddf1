// Schedules of GHS, fair ones and others, on random networks and on stored runs. bench/fair has the usage, judges what is
// printed here, and says what the words mean. Nothing here is proved.
#include "peers_ghs.h"
#include "peers_net.h"
#include <deque>
#include <set>

// A run: the nodes, and a queue for each direction of a link.
class Run : public Outbox {
    struct End {
        Node node;
        uint32_t port;
    };
    struct Waiting {
        Message message;
        uint64_t age; // when it was put into its queue, or sent
    };

    const Graph &graph;
    Ghs ghs;
    const bool keeps_age; // of a message that is put back
    std::vector<size_t> first; // of each node, its first queue
    std::vector<End> ends;     // of each queue
    std::vector<std::deque<Waiting>> queues;
    uint64_t clock = 0;

  public:
    uint64_t events = 0, sent = 0, requeued = 0;

    Run(const Graph &network, bool keeps) : graph(network), ghs(network, false), keeps_age(keeps), first(network.nodes + 1) {
        for (Node node = 1; node <= graph.nodes; ++node) {
            first[node] = ends.size();
            for (uint32_t port = 0; port < graph.degree(node); ++port) ends.push_back({node, port});
        }
        queues.resize(ends.size());
    }

    size_t count() const { return queues.size(); }
    bool ended() const { return ghs.ended(); }
    bool asleep(Node node) const { return ghs.asleep(node); }
    bool holds(size_t queue) const { return !queues[queue].empty(); }
    uint64_t age(size_t queue) const { return queues[queue].front().age; }
    uint8_t kind(size_t queue) const { return queues[queue].front().message.kind; }
    Node node_of(size_t queue) const { return ends[queue].node; }
    uint32_t port_of(size_t queue) const { return ends[queue].port; }
    size_t queue_at(Node node, uint32_t port) const {
        if (node < 1 || node > graph.nodes || port >= graph.degree(node)) fail("no such port");
        return first[node] + port;
    }

    // Whether the first message would only be put back.
    bool first_waits(size_t queue) const { return would_wait(queue, queues[queue].front()); }

    // Whether a message of the queue, at whatever place, wouldn't only be put back.
    bool has_work(size_t queue) const {
        for (const Waiting &one : queues[queue])
            if (!would_wait(queue, one)) return true;
        return false;
    }

    // All messages that are under way, in their order: two such lists are equal where messages were only put back, and
    // stand as before.
    std::vector<uint64_t> standing() const {
        std::vector<uint64_t> ages;
        for (const auto &queue : queues)
            for (const Waiting &one : queue) ages.push_back(one.age);
        return ages;
    }

    void wake(Node node) {
        if (!ghs.asleep(node)) fail("a node is awake");
        ++events;
        ghs.wake(*this, node);
    }

    // Takes the first message. Whether that consumed it or woke the node.
    bool take(size_t queue) {
        if (!holds(queue)) fail("no message there");
        const End end = ends[queue];
        const bool slept = ghs.asleep(end.node);
        ++events;
        Waiting one = std::move(queues[queue].front());
        queues[queue].pop_front();
        if (ghs.take(*this, end.node, end.port, one.message)) return true;
        ++requeued;
        if (!keeps_age) one.age = clock++;
        queues[queue].push_back(std::move(one));
        return slept;
    }

    void send(Node node, uint32_t port, Message message) override {
        const Port &there = graph.ports[node][port];
        ++sent;
        queues[first[there.far] + there.far_port].push_back({std::move(message), clock++});
    }

  private:
    bool would_wait(size_t queue, const Waiting &one) const {
        const End end = ends[queue];
        return !ghs.asleep(end.node) && ghs.waits(end.node, end.port, one.message);
    }
};

// Random networks: paths, trees, near-paths and cubes, and further links, also parallel ones; all weights differ.
static Graph random_network(Words &words, Node fewest, Node most) {
    Node nodes = fewest + words.below(most - fewest + 1);
    std::vector<Link> links;
    const uint64_t shape = words.below(5);
    if (shape == 4) {
        uint64_t dimensions = 2;
        while (dimensions < 6 && (2u << dimensions) <= most) ++dimensions;
        dimensions = 2 + words.below(dimensions - 1);
        nodes = 1u << dimensions;
        for (Node node = 0; node < nodes; ++node)
            for (uint64_t bit = 0; bit < dimensions; ++bit)
                if (!(node >> bit & 1)) links.push_back({0, node + 1, (node | 1u << bit) + 1});
    } else {
        for (Node node = 2; node <= nodes; ++node) {
            const Node back = 1 + words.below(std::min<Node>(3, node - 1));
            const Node other = shape == 0 ? node - 1 : shape == 1 ? 1 + words.below(node - 1) : shape == 2 ? node - back : node / 2;
            links.push_back({0, other, node});
        }
        for (uint64_t more = words.below(2) ? words.below(41) : 0; more > 0; --more) {
            const Node one = 1 + words.below(nodes), other = 1 + words.below(nodes);
            if (one != other) links.push_back({0, std::min(one, other), std::max(one, other)});
        }
    }
    words.shuffle(links);
    for (size_t at = 0; at < links.size(); ++at) links[at].weight = at + 1;
    return Graph(nodes, std::move(links));
}

static void print_run(const std::string &how, const Graph &graph, const Run &run, uint64_t laps, uint64_t idle, uint64_t idle_in_a_row,
                      const char *end) {
    std::printf("%s,%u,%zu,%llu,%llu,%llu,%llu,%llu,%llu,%s\n", how.c_str(), graph.nodes, graph.links.size(), (unsigned long long)laps,
                (unsigned long long)idle, (unsigned long long)idle_in_a_row, (unsigned long long)run.events,
                (unsigned long long)run.requeued, (unsigned long long)run.sent, end);
}

static const char *end_of(const Run &run) { return run.ended() ? "halted" : "silent"; }

// A schedule that keeps to laps, and gains as little by each as it can: first it takes each message that is only put back,
// then what it owes yet, in one of three orders; and it wakes a node only where nothing is under way. It owes a take to each
// queue that holds a message when the lap begins, or, with `sparing`, only to each that has work.
static void adversary(Words &words, const Graph &graph) {
    Run run(graph, false);
    const bool sparing = words.below(2);
    const uint64_t order = words.below(3);
    const uint64_t most = 4 * (2 * graph.links.size() + 100ull * graph.nodes);
    uint64_t laps = 0, idle = 0, in_a_row = 0, longest = 0;
    while (laps <= most) {
        std::vector<size_t> owed;
        bool silent = true;
        for (size_t queue = 0; queue < run.count(); ++queue) {
            silent &= !run.holds(queue);
            if (sparing ? run.has_work(queue) : run.holds(queue)) owed.push_back(queue);
        }
        bool got_on = false;
        if (silent) {
            std::vector<Node> sleepers;
            for (Node node = 1; node <= graph.nodes; ++node)
                if (run.asleep(node)) sleepers.push_back(node);
            if (sleepers.empty()) break;
            run.wake(sleepers[words.below(sleepers.size())]);
            got_on = true;
        }
        words.shuffle(owed);
        std::vector<size_t> later;
        for (size_t queue : owed)
            if (run.first_waits(queue)) got_on |= run.take(queue);
            else later.push_back(queue);
        if (order == 1) std::sort(later.rbegin(), later.rend());
        while (!later.empty()) {
            auto next = later.end() - 1;
            if (order == 2) next = std::min_element(later.begin(), later.end(), [&](size_t one, size_t other) { return run.kind(one) < run.kind(other); });
            got_on |= run.take(*next);
            later.erase(next);
        }
        ++laps;
        in_a_row = got_on ? 0 : in_a_row + 1;
        idle += !got_on;
        longest = std::max(longest, in_a_row);
    }
    print_run("adversary", graph, run, laps, idle, longest, laps <= most ? end_of(run) : "cut");
}

// What a schedule picks among the queues that hold a message.
enum class Pick { IN_TURN, LONGEST_THERE, AT_RANDOM, OLDEST };

// Until nothing is under way; or a message that was only put back comes round, so that the same events may follow for ever.
static void schedule(const std::string &how, Pick pick, Words &words, const Graph &graph) {
    Run run(graph, pick == Pick::OLDEST);
    const bool all = words.below(2);
    for (Node node = 1; node <= graph.nodes; ++node)
        if ((all || graph.root[node] == node) && run.asleep(node)) run.wake(node);
    const uint64_t most = 1000ull * (2 * graph.links.size() + 100ull * graph.nodes);
    std::set<std::vector<uint64_t>> met; // since something was consumed last
    uint64_t laps = 1;
    size_t place = 0;
    while (run.events <= most) {
        std::vector<size_t> held;
        for (size_t queue = 0; queue < run.count(); ++queue)
            if (run.holds(queue)) held.push_back(queue);
        if (held.empty()) return print_run(how, graph, run, laps, 0, 0, end_of(run));
        const auto older = [&](size_t one, size_t other) { return run.age(one) < run.age(other); };
        size_t queue = *std::min_element(held.begin(), held.end(), older);
        if (pick == Pick::AT_RANDOM) queue = held[words.below(held.size())];
        if (pick == Pick::IN_TURN) {
            auto next = std::lower_bound(held.begin(), held.end(), place);
            if (next == held.end()) ++laps, next = held.begin();
            queue = *next, place = queue + 1;
        }
        if (run.take(queue)) met.clear();
        else if (pick == Pick::OLDEST && !met.insert(run.standing()).second) return print_run(how, graph, run, laps, 0, 0, "circle");
    }
    print_run(how, graph, run, laps, 0, 0, "cut");
}

static uint64_t number(const std::string &text) {
    char *end = nullptr;
    const uint64_t value = std::strtoull(text.c_str(), &end, 10);
    if (text.empty() || *end) fail(text + ": not a number");
    return value;
}

// `NODE` wakes a node, `NODE PORT` takes a message; events have a comma between them.
static void play(Run &run, const std::string &events, bool only_put_back) {
    for (size_t at = 0; at < events.size();) {
        const size_t comma = std::min(events.find(',', at), events.size());
        unsigned node, port;
        const int fields = std::sscanf(events.substr(at, comma - at).c_str(), "%u %u", &node, &port);
        if (fields == 1) run.wake(node);
        else if (fields != 2) fail(events + ": not events");
        else if (run.take(run.queue_at(node, port)) && only_put_back) fail("an event of the circle gets on");
        at = comma + 1;
    }
}

// Plays a run, and then a circle of events; says what schedules that aren't fair see before the circle: how many queues have
// a first message that wouldn't only be put back, which nodes have messages, and the oldest message's place.
static void circle(const std::string &file, const std::string &before, const std::string &events) {
    const Graph graph = read_graph(file);
    Run run(graph, true);
    play(run, before, false);
    const std::vector<uint64_t> standing = run.standing();
    uint64_t free = 0;
    std::set<Node> nodes;
    size_t oldest = run.count();
    for (size_t queue = 0; queue < run.count(); ++queue)
        if (run.holds(queue)) {
            free += !run.first_waits(queue);
            nodes.insert(run.node_of(queue));
            if (oldest == run.count() || run.age(queue) < run.age(oldest)) oldest = queue;
        }
    play(run, events, true);
    if (oldest == run.count()) fail("nothing is under way");
    std::printf("circle=%s free=%llu nodes=", run.standing() == standing ? "closed" : "open", (unsigned long long)free);
    for (Node node : nodes) std::printf(node == *nodes.begin() ? "%u" : "+%u", node);
    std::printf(" oldest=%u:%u\n", run.node_of(oldest), run.port_of(oldest));
}

int main(int count, char **words) {
    const std::vector<std::string> given(words + 1, words + count);
    if (given.size() == 4 && given[0] == "circle") {
        circle(given[1], given[2], given[3]);
        return 0;
    }
    if (given.size() != 5) fail("fair adversary|schedules COUNT SEED FEWEST MOST, or fair circle FILE EVENTS EVENTS");
    Words source(number(given[2]));
    std::printf("how,nodes,links,laps,idle,idle_in_a_row,events,requeued,sent,end\n");
    for (uint64_t left = number(given[1]); left > 0; --left) {
        const Graph graph = random_network(source, number(given[3]), number(given[4]));
        if (given[0] == "adversary") {
            adversary(source, graph);
            continue;
        }
        schedule("round robin", Pick::IN_TURN, source, graph);
        schedule("longest in its queue first", Pick::LONGEST_THERE, source, graph);
        schedule("at random", Pick::AT_RANDOM, source, graph);
        schedule("oldest sent first", Pick::OLDEST, source, graph);
    }
}
