// Flood, as a warning: each node sends its row, which is its links, to all.
//
// The rules of a node:
//   - To wake: it sends its row on all ports.
//   - A row that is new to it: it sends the row on all ports but the one on which it came.
//   - When it has the row of each node that it has heard of: it computes the forest, and halts.
//
// In a connected network that is 2E·N - N(N - 1) messages in every order.
#pragma once
#include "peers_protocol.h"

class Flood : public Protocol {
    static const Node NODES = 2000; // a node keeps a word of each other one

    struct State {
        bool awake = false;
        Node rows = 0, heard_of = 0;
        std::vector<char> has_row, has_heard; // by node
        std::vector<uint8_t> branches;
    };
    std::vector<State> states;

  public:
    explicit Flood(const Graph &network) : Protocol(network, network.nodes), states(network.nodes + 1) {
        if (network.nodes > NODES) fail("flood takes 2000 nodes at most");
        for (Node node = 1; node <= network.nodes; ++node) {
            states[node].has_row.resize(network.nodes + 1);
            states[node].has_heard.resize(network.nodes + 1);
            states[node].branches.resize(network.degree(node));
        }
    }

    const std::vector<const char *> &kinds() const override {
        static const std::vector<const char *> names = {"row"};
        return names;
    }

    // Whose row it is, how many links, and of each the far end and the weight.
    uint64_t bits(const Message &message) const override {
        return graph.node_bits + graph.count_bits + graph.degree(message.node) * (graph.node_bits + graph.weight_bits);
    }

    bool asleep(Node node) const override { return !states[node].awake; }
    bool branch(Node node, uint32_t port) const override { return states[node].branches[port]; }

    void wake(Outbox &out, Node node) override {
        states[node].awake = true;
        learn(out, node, node, UINT32_MAX);
    }

    bool take(Outbox &out, Node node, uint32_t port, const Message &message) override {
        if (!states[node].awake) wake(out, node);
        if (!states[node].has_row[message.node]) learn(out, node, message.node, port);
        return true;
    }

  private:
    static void hear_of(State &state, Node node) {
        if (!state.has_heard[node]) state.has_heard[node] = true, ++state.heard_of;
    }

    void learn(Outbox &out, Node node, Node whose, uint32_t from) {
        State &state = states[node];
        state.has_row[whose] = true, ++state.rows;
        hear_of(state, whose);
        for (const Port &port : graph.ports[whose]) hear_of(state, port.far);
        for (uint32_t port = 0; port < graph.degree(node); ++port) {
            if (port == from) continue;
            Message message;
            message.node = whose;
            out.send(node, port, message);
        }
        if (state.rows == state.heard_of) compute(node);
    }

    void compute(Node node) {
        State &state = states[node];
        std::vector<Place> known;
        for (Node other = 1; other <= graph.nodes; ++other)
            if (state.has_row[other])
                for (const Port &port : graph.ports[other]) known.push_back(port.link);
        const std::vector<Place> forest = graph.forest(std::move(known));
        for (uint32_t port = 0; port < graph.degree(node); ++port)
            state.branches[port] = std::binary_search(forest.begin(), forest.end(), graph.ports[node][port].link);
        halt(node);
    }
};
