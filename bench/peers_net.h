// The network that runs a protocol: a queue for each direction of a link, an account of what is sent, and three ways to
// pick what happens next: by a seed, by rounds, and by a stored trace. The same seed gives the same run with any compiler.
#pragma once
#include "peers_protocol.h"
#include <map>
#include <random>

class Words { // a seed's random words
    std::mt19937_64 words;

  public:
    explicit Words(uint64_t seed) : words(seed) {}
    uint64_t below(uint64_t count) { return words() % count; }
    template <class Item> void shuffle(std::vector<Item> &items) {
        for (size_t left = items.size(); left > 1; --left) std::swap(items[left - 1], items[below(left)]);
    }
};

class Queue { // the messages that wait at a port
    std::vector<Message> items;
    size_t taken = 0;

  public:
    bool empty() const { return taken == items.size(); }
    const Message &front() const { return items[taken]; }
    void put(Message message) { items.push_back(std::move(message)); }
    Message take() {
        Message message = std::move(items[taken++]);
        if (2 * taken >= items.size()) items.erase(items.begin(), items.begin() + taken), taken = 0;
        return message;
    }
};

struct Account {
    uint64_t events = 0, sent = 0, requeued = 0, bits = 0, longest = 0, rounds = 0;
    std::vector<uint64_t> kinds;
};

class Net : public Outbox {
    struct End {
        Node node;
        uint32_t port;
    };

    const Graph &graph;
    Protocol &protocol;
    Words words;
    std::vector<size_t> first; // of each node, its first queue
    std::vector<End> ends;     // of each queue
    std::vector<Queue> queues;
    std::vector<size_t> ready, ready_at; // events: a node's wake, or, behind these, a queue that holds a message
    // rounds
    bool in_rounds = false;
    uint64_t now = 0, width = 0;
    std::vector<uint64_t> busy;                        // of each queue, the last round in which its link is taken
    std::map<uint64_t, std::vector<size_t>> arrivals;  // of each round to come, the queues to which something comes
    std::vector<std::vector<size_t>> waiting;          // of each node, its queues in which a message waits

  public:
    Account account;

    Net(const Graph &network, Protocol &rules, uint64_t seed)
        : graph(network), protocol(rules), words(seed), first(network.nodes + 1) {
        for (Node node = 1; node <= graph.nodes; ++node) {
            first[node] = ends.size();
            for (uint32_t port = 0; port < graph.degree(node); ++port) ends.push_back({node, port});
        }
        queues.resize(ends.size());
        ready_at.assign(graph.nodes + ends.size(), SIZE_MAX);
        account.kinds.assign(protocol.kinds().size(), 0);
    }

    void send(Node node, uint32_t port, Message message) override {
        const Port &there = graph.ports[node][port];
        const size_t queue = first[there.far] + there.far_port;
        const uint64_t bits = protocol.bits(message);
        ++account.sent, ++account.kinds[message.kind];
        account.bits += bits, account.longest = std::max(account.longest, bits);
        if (in_rounds) {
            // A long message takes its link for several rounds, and those behind it come later.
            if (width > 0) busy[queue] = std::max(busy[queue], now) + (bits + width - 1) / width;
            message.arrives = width > 0 ? busy[queue] : now + 1;
            arrivals[message.arrives].push_back(queue);
        } else mark(graph.nodes + queue);
        queues[queue].put(std::move(message));
    }

    // Picks among the events that may happen, each as likely as another, until the run has ended. Where a thousand times as
    // many picks as there are events have only put messages back, none of them moves the run on, and it is given up.
    void run_by_seed(bool all_wake) {
        for (Node node = 1; node <= graph.nodes; ++node)
            if (all_wake || graph.root[node] == node) mark(node - 1);
        for (uint64_t idle = 0; goes_on() && !ready.empty() && idle <= 1000 * ready.size();) {
            const uint64_t requeued = account.requeued;
            const size_t event = ready[words.below(ready.size())];
            if (event < graph.nodes) wake(event + 1);
            else take(event - graph.nodes);
            idle = account.requeued > requeued ? idle + 1 : 0;
        }
    }

    // All that is on its way arrives in the next round; or, on links of so many bits a round, once all its bits have
    // come. A node takes what came in an order that the seed picks, and looks at what waits again when it has changed.
    void run_in_rounds(bool all_wake, uint64_t bits_a_round) {
        in_rounds = true, width = bits_a_round;
        busy.assign(queues.size(), 0);
        waiting.resize(graph.nodes + 1);
        for (Node node = 1; node <= graph.nodes; ++node)
            if (all_wake || graph.root[node] == node) wake(node);
        while (goes_on() && !arrivals.empty()) {
            now = arrivals.begin()->first;
            std::vector<size_t> due = std::move(arrivals.begin()->second);
            arrivals.erase(arrivals.begin());
            std::sort(due.begin(), due.end());
            due.erase(std::unique(due.begin(), due.end()), due.end());
            words.shuffle(due);
            for (size_t queue : due) {
                bool changed = visit(queue);
                while (changed) {
                    changed = false;
                    std::vector<size_t> again;
                    again.swap(waiting[ends[queue].node]);
                    for (size_t other : again) changed |= visit(other);
                }
            }
        }
        account.rounds = now;
    }

    // Makes the events of a trace (docs/FORMATS.md). Whether the run ended with its last event, and not before.
    bool play(const std::string &path) {
        std::FILE *file = std::fopen(path.c_str(), "r");
        if (!file) fail(path + ": can't be opened");
        char line[64];
        bool early = false;
        while (std::fgets(line, sizeof line, file)) {
            unsigned node, port;
            early |= protocol.ended() && account.events > 0;
            if (std::sscanf(line, "wake %u", &node) == 1) {
                if (node > graph.nodes || !protocol.asleep(node)) fail("the trace wakes a node that is awake");
                wake(node);
            } else if (std::sscanf(line, "take %u %u", &node, &port) == 2) {
                if (node > graph.nodes || port >= graph.degree(node) || queues[first[node] + port].empty())
                    fail("the trace takes a message where none is");
                take(first[node] + port);
            } else early = false; // the head
        }
        std::fclose(file);
        return protocol.ended() && !early;
    }

  private:
    // No protocol sends nearly as much as this: a wrong rule may send for ever, and is to be told.
    bool goes_on() const {
        const uint64_t nodes = graph.nodes, most = 4 * (graph.links.size() + nodes) * (nodes + 20);
        return !protocol.ended() && account.sent <= most;
    }

    void mark(size_t event) {
        if (ready_at[event] != SIZE_MAX) return;
        ready_at[event] = ready.size();
        ready.push_back(event);
    }

    void unmark(size_t event) {
        const size_t at = ready_at[event];
        if (at == SIZE_MAX) return;
        ready[at] = ready.back(), ready_at[ready[at]] = at;
        ready.pop_back();
        ready_at[event] = SIZE_MAX;
    }

    void wake(Node node) {
        ++account.events;
        unmark(node - 1);
        protocol.wake(*this, node);
    }

    // A message that isn't done with goes to the end of its queue.
    void take(size_t queue) {
        const End end = ends[queue];
        ++account.events;
        Message message = queues[queue].take();
        const bool done = protocol.take(*this, end.node, end.port, message);
        unmark(end.node - 1); // it is awake now
        if (!done) ++account.requeued, queues[queue].put(std::move(message));
        if (queues[queue].empty()) unmark(graph.nodes + queue);
    }

    // Takes each message of the queue that has arrived, once. Whether one was done with.
    bool visit(size_t queue) {
        bool changed = false;
        Queue later;
        while (!queues[queue].empty() && !protocol.ended()) {
            if (queues[queue].front().arrives > now) {
                later.put(queues[queue].take());
                continue;
            }
            changed |= take_arrived(queue, later);
        }
        while (!queues[queue].empty()) later.put(queues[queue].take());
        std::swap(queues[queue], later);
        return changed;
    }

    bool take_arrived(size_t queue, Queue &later) {
        const End end = ends[queue];
        ++account.events;
        Message message = queues[queue].take();
        if (protocol.take(*this, end.node, end.port, message)) return true;
        ++account.requeued;
        later.put(std::move(message));
        std::vector<size_t> &others = waiting[end.node];
        if (std::find(others.begin(), others.end(), queue) == others.end()) others.push_back(queue);
        return false;
    }
};
