// Gather: each node that wakes by itself starts a wave, and the wave of the smallest number wins. Links come in with the
// answers, the leader computes the forest, and each node tells each child which of the links that it sent are in it.
//
// The rules of a node:
//   - To wake: it joins the wave of its own number.
//   - To join wave x: it forgets what other waves brought, sends Explore(x) on each port but its parent, and awaits an answer
//     from each.
//   - Explore(x): if it sleeps, or x is below its wave, it joins x, with that port as its parent. If x is its wave, the message
//     is an answer. It ignores a greater x.
//   - Back(x, links), x its wave: an answer too. It knows these links now, and the port leads to a child.
//   - When it awaits no answer any more: it takes the minimum spanning forest of the links that it knows, its own among them
//     (a link that is heaviest on a cycle isn't in the tree), and sends it to its parent as Back. Without a parent, that forest
//     is the tree.
//   - Tree(links): its ports in it become Branch, it sends each child those links of the tree that the child had sent, and halts.
//
// If one node wakes in a connected network, that is 2E + N - 1 messages in every order.
#pragma once
#include "peers_protocol.h"
#include <iterator>

class Gather : public Protocol {
    enum Kind : uint8_t { EXPLORE, BACK, TREE };
    static const uint32_t NO_PORT = UINT32_MAX;

    struct State {
        Node wave = 0; // none while it sleeps
        uint32_t parent = NO_PORT;
        uint32_t answers = 0; // how many are awaited
        std::vector<Place> known;
        std::vector<Places> sent_by; // by port: what the child there has sent; none where there is no child
        std::vector<uint8_t> branches;
    };
    std::vector<State> states;

  public:
    explicit Gather(const Graph &network) : Protocol(network, network.nodes), states(network.nodes + 1) {
        for (Node node = 1; node <= network.nodes; ++node) {
            states[node].sent_by.resize(network.degree(node));
            states[node].branches.resize(network.degree(node));
        }
    }

    const std::vector<const char *> &kinds() const override {
        static const std::vector<const char *> names = {"explore", "back", "tree"};
        return names;
    }

    // Two bits for the kind, the wave but in Tree, and a list as its length and its keys.
    uint64_t bits(const Message &message) const override {
        const uint64_t list = message.list ? graph.count_bits + message.list->size() * graph.key_bits : 0;
        return 2 + (message.kind == TREE ? 0 : graph.node_bits) + list;
    }

    bool asleep(Node node) const override { return states[node].wave == 0; }
    bool branch(Node node, uint32_t port) const override { return states[node].branches[port]; }
    void wake(Outbox &out, Node node) override { join(out, node, node, NO_PORT); }

    bool take(Outbox &out, Node node, uint32_t port, const Message &message) override {
        State &state = states[node];
        switch (message.kind) {
        case EXPLORE:
            if (state.wave == 0 || message.node < state.wave) join(out, node, message.node, port);
            else if (message.node == state.wave) answered(out, node);
            break;
        case BACK:
            if (message.node != state.wave) break; // of a wave that has lost
            state.sent_by[port] = message.list;
            state.known.insert(state.known.end(), message.list->begin(), message.list->end());
            answered(out, node);
            break;
        default: tell(out, node, message.list);
        }
        return true;
    }

  private:
    void send(Outbox &out, Node node, uint32_t port, Kind kind, Node wave, Places list) {
        Message message;
        message.kind = kind, message.node = wave, message.list = std::move(list);
        out.send(node, port, std::move(message));
    }

    // What it knew by another wave is forgotten: the nodes that sent it are asked again by this one.
    void join(Outbox &out, Node node, Node wave, uint32_t parent) {
        State &state = states[node];
        state.wave = wave, state.parent = parent, state.answers = 0;
        state.known.clear();
        std::fill(state.sent_by.begin(), state.sent_by.end(), nullptr);
        for (uint32_t port = 0; port < graph.degree(node); ++port) {
            state.known.push_back(graph.ports[node][port].link);
            if (port == parent) continue;
            send(out, node, port, EXPLORE, wave, nullptr);
            ++state.answers;
        }
        if (state.answers == 0) finish(out, node);
    }

    void answered(Outbox &out, Node node) {
        if (--states[node].answers == 0) finish(out, node);
    }

    // A link that is heaviest on a cycle of known links is in no tree, and needn't go on.
    void finish(Outbox &out, Node node) {
        State &state = states[node];
        const Places kept = std::make_shared<const std::vector<Place>>(graph.forest(state.known));
        if (state.parent != NO_PORT) send(out, node, state.parent, BACK, state.wave, kept);
        else tell(out, node, kept);
    }

    void tell(Outbox &out, Node node, const Places &forest) {
        State &state = states[node];
        for (uint32_t port = 0; port < graph.degree(node); ++port) {
            if (std::binary_search(forest->begin(), forest->end(), graph.ports[node][port].link)) state.branches[port] = true;
            const Places sent = state.sent_by[port];
            if (!sent) continue;
            std::vector<Place> its;
            std::set_intersection(forest->begin(), forest->end(), sent->begin(), sent->end(), std::back_inserter(its));
            send(out, node, port, TREE, 0, std::make_shared<const std::vector<Place>>(std::move(its)));
        }
        halt(node);
    }
};
