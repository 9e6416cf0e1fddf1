// What a protocol is to the network that runs it: what a node does when it wakes and when it takes a message, how long a
// message is, and when the run has ended.
#pragma once
#include "peers_graph.h"
#include <memory>

using Places = std::shared_ptr<const std::vector<Place>>;

struct Message {
    uint8_t kind = 0;
    uint8_t level = 0;
    bool find = false;     // GHS: the phase of an Initiate
    Place key = NO_LINK;
    Node node = 0;         // Gather: the wave. Flood: whose row it is
    Places list = nullptr; // Gather: links
    uint64_t arrives = 0;  // in rounds: the round in which it may be taken first
};

struct Outbox {
    virtual void send(Node node, uint32_t port, Message message) = 0;
    virtual ~Outbox() = default;
};

struct Protocol {
    const Graph &graph;
    uint64_t open; // what has to halt yet: components, or nodes
    std::vector<char> halted;

    Protocol(const Graph &network, uint64_t halts) : graph(network), open(halts), halted(network.nodes + 1) {}
    virtual ~Protocol() = default;
    virtual const std::vector<const char *> &kinds() const = 0;
    virtual uint64_t bits(const Message &message) const = 0;
    virtual bool asleep(Node node) const = 0;
    virtual bool branch(Node node, uint32_t port) const = 0;
    virtual void wake(Outbox &out, Node node) = 0;
    // False where the message waits: it goes to the end of its queue. A sleeper that takes one wakes first.
    virtual bool take(Outbox &out, Node node, uint32_t port, const Message &message) = 0;

    bool ended() const { return open == 0; }
    // One core node is enough for its component.
    void halt_component(Node node) { halt(graph.root[node]); }
    void halt(Node node) {
        if (!halted[node]) halted[node] = true, --open;
    }
};
